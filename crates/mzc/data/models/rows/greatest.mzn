include "names.mzn";
constraint max(a) = 7;
solve satisfy;
