include "names.mzn";
constraint sum(j in s)(c[j]) = 7;
solve satisfy;
