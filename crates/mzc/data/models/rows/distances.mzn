include "names.mzn";
constraint forall(j, k in 1..n where j < k)(abs(a[j] - a[k]) != k - j);
solve satisfy;
