include "names.mzn";
constraint cumulative(a, [2 | j in 1..n], [2 | j in 1..n], 3);
solve satisfy;
