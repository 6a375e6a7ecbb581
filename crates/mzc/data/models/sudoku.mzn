% Numbers from 1 to 9, each once in a row, a column and a block. A 0 is an empty field.
set of int: N = 1..9;
array[N, N] of 0..9: given = [|
  0, 0, 0, 0, 0, 0, 0, 1, 2 |
  0, 0, 0, 0, 3, 5, 0, 0, 0 |
  0, 0, 0, 6, 0, 0, 0, 7, 0 |
  7, 0, 0, 0, 0, 0, 3, 0, 0 |
  0, 0, 0, 4, 0, 0, 8, 0, 0 |
  1, 0, 0, 0, 0, 0, 0, 0, 0 |
  0, 0, 0, 1, 2, 0, 0, 0, 0 |
  0, 8, 0, 0, 0, 0, 0, 4, 0 |
  0, 5, 0, 0, 0, 0, 6, 0, 0 |];

array[N, N] of var N: field;

predicate differ(array[int] of var int: xs) =
  forall(i, j in index_set(xs) where i < j)(xs[i] != xs[j]);

constraint forall(i, j in N where given[i, j] > 0)(field[i, j] = given[i, j]);
constraint forall(i in N)(differ([field[i, j] | j in N]));
constraint forall(j in N)(differ([field[i, j] | i in N]));
constraint forall(a, b in 0..2)(differ([field[3 * a + i, 3 * b + j] | i, j in 1..3]));
solve satisfy;
