include "names.mzn";
constraint exists(j in 1..n)(a[j] = 3);
solve satisfy;
