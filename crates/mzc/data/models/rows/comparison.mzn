include "names.mzn";
constraint x < y;
solve satisfy;
