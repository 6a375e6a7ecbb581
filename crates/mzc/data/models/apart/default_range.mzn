% An integer with no domain is at most 1000000000.
var int: x;
constraint x > 1500000000 /\ x < 1500000002;
solve satisfy;
