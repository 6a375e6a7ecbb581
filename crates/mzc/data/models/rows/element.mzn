include "names.mzn";
constraint element(i, a, x);
solve satisfy;
