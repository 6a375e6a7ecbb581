include "names.mzn";
constraint sum(j in 1..n)(c[j] * bool2int(j in s)) = 7;
solve satisfy;
