% Bounds come from the declarations alone: no constraint is looked at, and no gap.
var {1, 3, 5}: x;
var 0..9: low;
var 0..9: count_of_values;
constraint x > 1;
constraint low = lb(x);
constraint count_of_values = card(dom(x));
solve satisfy;
