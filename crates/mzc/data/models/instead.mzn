% What is written in place of forms that are refused: docs/OTHER_TOOLS.md.
enum E = {A, B, C};
array[E, 1..2] of int: m = array2d(E, 1..2, [1, 2, 3, 4, 5, 6]);
int: n = 2;
E: second = min({c | c in E where c = n});
array[1..3] of var 1..3: a;
array[1..3] of var bool: b;
var 1..3: x;
var opt 1..3: o;
var set of 1..3: s;
var 1..3: greatest;

constraint forall(i in index_set(a))(a[i] = [2, 1, 3][i]);
constraint forall(i in 1..3)(i <= x -> a[i] < 3);
constraint [2, 4, 8][x] = 4;
constraint sum([m[second, j] | j in index_set_2of2(m)]) = 7;
constraint occurs(o) /\ deopt(o) + 1 = 3;
constraint max(i in 1..3)(if b[i] then a[i] else 0 endif) = 2;
constraint greatest in s /\ forall(j in s)(j <= greatest);
constraint sum(j in s)(j) = 3;
solve satisfy;
