include "names.mzn";
constraint sum(j in 1..n where b[j])(a[j]) = 7;
solve satisfy;
