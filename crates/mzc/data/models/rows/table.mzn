include "names.mzn";
constraint table(a, array2d(1..2, 1..n, [j + k | k in 1..2, j in 1..n]));
solve satisfy;
