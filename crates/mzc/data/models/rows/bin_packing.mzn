include "names.mzn";
constraint bin_packing(9, a, [2 | j in 1..n]);
solve satisfy;
