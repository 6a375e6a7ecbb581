include "names.mzn";
array[1..n] of var opt 1..9: o;
solve satisfy;
