% Tasks for five hours of one person, each at some hour or not at all: as much done as possible.
enum TASK = {Saw, Drill, Sand, Paint};
array[TASK] of int: hours = array1d(TASK, [2, 3, 1, 2]);
array[TASK] of int: worth = array1d(TASK, [3, 4, 2, 3]);
array[TASK] of var opt 0..4: start;
array[TASK] of var 0..4: at;
array[TASK] of var 0..3: lasts;
constraint forall(t in TASK)(
  if occurs(start[t]) then at[t] = deopt(start[t]) /\ lasts[t] = hours[t] else at[t] = 0 /\ lasts[t] = 0 endif
);
constraint cumulative(at, lasts, [1 | t in TASK], 1);
constraint forall(t in TASK)(at[t] + lasts[t] <= 5);
solve maximize sum(t in TASK where occurs(start[t]))(worth[t]);
output ["\(t): \(start[t])\n" | t in TASK];
