% An undefined expression makes the nearest Boolean false: `12 div x` at x = 0, and `a[y]` outside 1..3.
array[1..3] of int: a = [5, 6, 7];
var 0..4: x;
var 0..4: y;
constraint not (12 div x = 4);
constraint a[y] > 5 \/ x = 0;
solve satisfy;
