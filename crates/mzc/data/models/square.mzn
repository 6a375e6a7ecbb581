% Both square roots of 49, of an integer with no domain.
var int: x;
constraint x * x = 49;
solve satisfy;
