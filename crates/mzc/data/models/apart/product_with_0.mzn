% What is undefined makes the nearest Boolean false, also in a product with 0.
var 0..2: x;
var bool: b;
constraint b <-> 0 * (6 div x) = 0;
solve satisfy;
