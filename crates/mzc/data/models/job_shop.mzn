% Three jobs, each a chain of tasks on three machines: no machine does two tasks at once.
set of int: JOB = 1..3;
set of int: STEP = 1..3;
array[JOB, STEP] of 1..3: machine = [| 1, 2, 3 | 2, 1, 3 | 3, 2, 1 |];
array[JOB, STEP] of int: time = [| 3, 2, 2 | 2, 4, 1 | 4, 3, 1 |];
int: horizon = sum(j in JOB, s in STEP)(time[j, s]);

array[JOB, STEP] of var 0..horizon: start;
var 0..horizon: makespan;

constraint forall(j in JOB, s in 2..3)(start[j, s - 1] + time[j, s - 1] <= start[j, s]);
constraint forall(j in JOB)(start[j, 3] + time[j, 3] <= makespan);
constraint forall(j, k in JOB, s, t in STEP where j < k /\ machine[j, s] = machine[k, t])(
  start[j, s] + time[j, s] <= start[k, t] \/ start[k, t] + time[k, t] <= start[j, s]
);
solve minimize makespan;
