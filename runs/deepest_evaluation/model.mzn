% Evaluated 600 deep: six levels for each call.
function int: down(int: n) =
  let { array[1..1] of int: a = [if n = 0 then 0 else sum([down(n - 1) | i in 1..1]) endif] } in a[1];
0..0: none = down(99);
var none..3: x;
solve satisfy;
