% Who takes the early and the late shift: is the data right?
enum NURSE;
array[NURSE] of int: hours;
int: most = max(hours);
constraint assert(most <= 40, "somebody works \(most) hours");
var 1..card(NURSE): early;
var 1..card(NURSE): late;
constraint early != late;
solve satisfy;
