% Who works on which day: the number of nurses is no set.
int: nurses = 4;
array[1..3] of var 1..4: on_duty;
constraint forall(day in nurses)(on_duty[day] != 1);
solve satisfy;
