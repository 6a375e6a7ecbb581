include "names.mzn";
constraint increasing(a);
solve satisfy;
