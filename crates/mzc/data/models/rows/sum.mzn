include "names.mzn";
constraint x + y = 7;
solve satisfy;
