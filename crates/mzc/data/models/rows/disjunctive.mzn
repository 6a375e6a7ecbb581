include "names.mzn";
constraint disjunctive(a, [2 | j in 1..n]);
solve satisfy;
