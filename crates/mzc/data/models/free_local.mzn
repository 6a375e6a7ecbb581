% Each number has a divisor of its own, which isn't written: a free local in a let.
predicate composite(var int: n) = let { var 2..9: d; var 2..9: e } in d * e = n;
var 1..20: p;
var 1..20: q;
constraint composite(p) /\ composite(q);
constraint p + 1 = q;
solve satisfy;
