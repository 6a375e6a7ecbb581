% A square whose rows, columns and diagonals have one sum; the smallest corner stands first.
int: n = 3;
int: total = n * (n * n + 1) div 2;
array[1..n, 1..n] of var 1..n * n: field;
constraint forall(i, j, k, l in 1..n where i < k \/ i = k /\ j < l)(field[i, j] != field[k, l]);
constraint forall(i in 1..n)(sum(j in 1..n)(field[i, j]) = total);
constraint forall(j in 1..n)(sum(i in 1..n)(field[i, j]) = total);
constraint sum(i in 1..n)(field[i, i]) = total;
constraint sum(i in 1..n)(field[i, n + 1 - i]) = total;
constraint field[1, 1] < field[1, n] /\ field[1, 1] < field[n, 1] /\ field[1, 1] < field[n, n];
constraint field[1, n] < field[n, 1];
solve satisfy;
