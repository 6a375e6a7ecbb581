% Choices that no constraint reads: each is a variable that no row names.
var 1..3: x;
constraint lb(let { var 1..2: l } in x) = 1;
constraint is_fixed(let { var bool: l } in 1);
solve satisfy;
