enum ITEM;
array[ITEM] of int: w;
array[ITEM] of int: v;
int: cap;
var set of ITEM: s;
constraint sum(i in s)(w[i]) <= cap;
solve maximize sum(i in s)(v[i]);
output ["take \(s)\n"];
