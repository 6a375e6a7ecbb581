% Four guests in a row, each next to the one that it likes best.
enum GUEST = {Ann, Ben, Cy, Dee};
array[GUEST] of GUEST: likes = array1d(GUEST, [Ben, Cy, Dee, Cy]);
array[1..4] of var GUEST: seat;                 % who sits where
constraint forall(i, j in 1..4 where i < j)(seat[i] != seat[j]);
% At an end one of the two neighbours isn't there: then its comparison is false.
constraint forall(i in 1..4)(seat[i - 1] = likes[seat[i]] \/ seat[i + 1] = likes[seat[i]]);
constraint seat[1] < seat[4];
solve satisfy;
