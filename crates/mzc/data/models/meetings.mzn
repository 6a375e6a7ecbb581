% Meetings in one room, on a day that is as short as possible.
enum MEETING = {Budget, Hiring, Party};
array[MEETING] of int: hours = array1d(MEETING, [2, 3, 1]);
array[MEETING] of var 9..18: start;

function var int: finish(MEETING: m) = start[m] + hours[m];
predicate before(MEETING: a, MEETING: b) = finish(a) <= start[b];
% From the first start to the last end.
function var int: day(set of MEETING: ms) =
  let { var int: first = min([start[m] | m in ms]), var int: last = max([finish(m) | m in ms]) } in last - first;

constraint forall(a, b in MEETING where a < b)(before(a, b) \/ before(b, a));
constraint finish(Budget) <= 12 /\ start[Hiring] >= 12 /\ before(Party, Budget);
solve minimize day(MEETING);
