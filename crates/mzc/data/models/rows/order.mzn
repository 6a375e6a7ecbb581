include "names.mzn";
constraint forall(j in 2..n)(a[j - 1] < a[j]);
solve satisfy;
