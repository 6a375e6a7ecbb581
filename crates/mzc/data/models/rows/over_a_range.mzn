include "names.mzn";
constraint forall(j in 1..n)(j in s -> j < x);
solve satisfy;
