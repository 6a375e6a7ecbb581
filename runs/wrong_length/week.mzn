% What is asked for on each day of the week.
int: days;
array[1..days] of int: demand;
solve satisfy;
