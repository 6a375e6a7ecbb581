include "names.mzn";
constraint sum(j in 1..n)(a[j] * bool2int(b[j])) = 7;
solve satisfy;
