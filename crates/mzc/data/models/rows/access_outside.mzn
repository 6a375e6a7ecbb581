include "names.mzn";
constraint a[i + 1] = 3;
solve satisfy;
