% The cube root of 8, of an integer with no domain.
var int: x;
constraint x * x * x = 8;
solve satisfy;
