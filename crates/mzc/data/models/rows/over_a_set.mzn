include "names.mzn";
constraint forall(j in s)(j < x);
solve satisfy;
