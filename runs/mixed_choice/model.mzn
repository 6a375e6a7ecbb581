% Of two arrays of truth values under a condition, one is of options.
array[1..2] of var opt bool: y;
array[1..2] of var bool: z;
var bool: b;
constraint exists(if b then z else y endif);
solve satisfy;
