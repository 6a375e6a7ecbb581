include "names.mzn";
constraint count(j in 1..n)(a[j] = 3) = 2;
solve satisfy;
