% Truth values that are read as options: at an index that is a variable, also where the array has no such place, as results
% of functions, and by a generator.
array[1..2] of opt bool: known = [false, true];
var bool: x;
var opt bool: y;
var 1..3: i;
function var opt bool: as_option(var bool: z) = z;
function array[int] of var opt bool: as_options(array[int] of var bool: a) = a;
function var opt bool: at(array[int] of var opt bool: a) = a[i];
constraint occurs(at(known)) <-> i < 3;
constraint deopt(at(known)) \/ i != 2;
constraint deopt(at([x, not x])) -> not x;
constraint occurs(([x] ++ [y])[i]);
constraint deopt(as_option(x)) <-> x;
constraint exists(o in as_options([x, not x]))(deopt(o));
solve satisfy;
