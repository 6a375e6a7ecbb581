include "names.mzn";
constraint count(a, 3, y);
solve satisfy;
