% What the forms of this folder speak of, whose rows are counted for some n.
int: n;
array[1..n] of var 1..9: a;
array[1..n] of var bool: b;
array[1..n] of int: c = [i * i | i in 1..n];
array[1..n] of var 1..n: d;
array[1..n] of var 1..n: e;
var 1..9: x;
var 1..9: y;
var 1..n: i;
var bool: p;
var set of 1..n: s;
var set of 1..n: t;
