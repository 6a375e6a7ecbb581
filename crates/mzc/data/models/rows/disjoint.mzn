include "names.mzn";
constraint s intersect t = {};
solve satisfy;
