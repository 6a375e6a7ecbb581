include "names.mzn";
constraint a[i] = 3;
solve satisfy;
