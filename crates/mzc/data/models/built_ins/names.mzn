enum Day = {Mon, Tue, Wed};
array[1..3] of int: a = [3, 1, 2];
array[1..2, 1..3] of int: t = array2d(1..2, 1..3, [1, 2, 3, 4, 5, 6]);
opt int: here = 3;
var 1..5: x;
