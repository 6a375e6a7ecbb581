% What isn't known before solving has no fixed value.
var 1..3: x;
constraint x > 1 \/ fix(x) = 1;
solve satisfy;
