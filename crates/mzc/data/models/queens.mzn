% Queens that don't attack each other, one in each row of a board.
int: n = 6;
array[1..n] of var 1..n: column;
constraint forall(i, j in 1..n where i < j)(
  column[i] != column[j]
  /\ column[i] + i != column[j] + j
  /\ column[i] - i != column[j] - j
);
solve satisfy;
