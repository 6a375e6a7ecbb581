include "names.mzn";
constraint sum(a) = 7;
solve satisfy;
