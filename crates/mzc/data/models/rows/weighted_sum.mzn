include "names.mzn";
constraint sum(j in 1..n)(c[j] * a[j]) = 7;
solve satisfy;
