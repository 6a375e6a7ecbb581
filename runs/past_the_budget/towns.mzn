% How far two towns may be from each other.
int: towns;
array[1..towns] of int: place;
set of int: distances = {abs(place[a] - place[b]) | a, b in 1..towns};
var distances: leg;
solve satisfy;
