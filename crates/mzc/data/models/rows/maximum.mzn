include "names.mzn";
constraint maximum(x, a);
solve satisfy;
