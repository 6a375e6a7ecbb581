include "names.mzn";
constraint inverse(d, e);
solve satisfy;
