include "names.mzn";
constraint sliding_sum(1, 9, 2, a);
solve satisfy;
