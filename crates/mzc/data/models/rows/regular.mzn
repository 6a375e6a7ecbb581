include "names.mzn";
constraint regular(a, 2, 9, array2d(1..2, 1..9, [1 + (j + k) mod 2 | j in 1..2, k in 1..9]), 1, {2});
solve satisfy;
