% Each call takes a choice of its own.
function var int: next(var int: z) = let { var 1..2: y } in z + y;
var 0..0: x;
constraint next(x) = 1 /\ next(x) = 2;
solve satisfy;
