% Five jobs that need people, of whom there are four at a time: each to end as early as it can.
enum JOB = {Cut, Weld, Paint, Pack, Ship};
array[JOB] of int: hours = array1d(JOB, [3, 2, 4, 1, 2]);
array[JOB] of int: people = array1d(JOB, [2, 3, 1, 2, 2]);
array[JOB] of var 0..9: start;
array[JOB] of var 0..9: end = array1d(JOB, [start[j] + hours[j] | j in JOB]);
constraint cumulative(start, hours, people, 4);
constraint end[Cut] <= start[Weld] /\ end[Paint] <= start[Pack] /\ end[Weld] <= start[Ship];
solve minimize sum(end);
output ["\(j): \(start[j]) to \(end[j])\n" | j in JOB] ++ ["all is done at \(max(end))\n"];
