% A number that has no divisor: a predicate with a local variable has no negation.
predicate composite(var int: n) = let { var 2..9: d; var 2..9: e } in d * e = n;
var 1..20: p;
constraint not composite(p);
solve satisfy;
