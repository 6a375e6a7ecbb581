% How many hours each person works.
int: hours;
int: people;
1..12: each = hours div people;
solve satisfy;
