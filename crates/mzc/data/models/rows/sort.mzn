include "names.mzn";
constraint sort(d, e);
solve satisfy;
