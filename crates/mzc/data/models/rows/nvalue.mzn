include "names.mzn";
constraint nvalue(x, a);
solve satisfy;
