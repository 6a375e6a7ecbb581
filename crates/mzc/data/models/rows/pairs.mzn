include "names.mzn";
constraint forall(j, k in 1..n where j < k)(a[j] != a[k]);
solve satisfy;
