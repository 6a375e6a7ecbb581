% Lectures in rooms and slots; a lecture may be left out, which costs its listeners.
enum LECTURE = {Logic, Algebra, Physics, History};
enum ROOM = {Hall, Small};
set of int: SLOT = 1..2;
array[LECTURE] of int: listeners = array1d(LECTURE, [60, 30, 25, 20]);
array[ROOM] of int: seats = array1d(ROOM, [50, 30]);
array[LECTURE, LECTURE] of bool: together = array2d(LECTURE, LECTURE, [
  false, true, false, false, true, false, true, false, false, true, false, false, false, false, false, false]);

array[LECTURE] of var opt SLOT: slot;
array[LECTURE] of var ROOM: room;

constraint forall(l in LECTURE where occurs(slot[l]))(listeners[l] <= seats[room[l]]);
constraint forall(l, m in LECTURE where l < m)(
  occurs(slot[l]) /\ occurs(slot[m]) /\ deopt(slot[l]) = deopt(slot[m]) -> room[l] != room[m] /\ not together[l, m]
);
constraint forall(l in LECTURE)(not occurs(slot[l]) -> room[l] = Hall);
solve minimize sum(l in LECTURE)(if occurs(slot[l]) then 0 else listeners[l] endif);
