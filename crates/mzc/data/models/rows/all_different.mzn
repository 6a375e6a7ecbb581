include "names.mzn";
constraint all_different(a);
solve satisfy;
