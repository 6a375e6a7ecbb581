% Who works on which day, from data.
enum Nurse;
int: days;
array[1..days] of int: needed;
array[1..days] of var Nurse: on_duty;
constraint forall(day in 1..days)(needed[day] > 0);
solve satisfy;
