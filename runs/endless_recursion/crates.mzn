% How many crates fit: the case without room is missing.
function int: crates(int: room) = 1 + crates(room - 3);
int: most = crates(100);
var 0..most: packed;
solve satisfy;
