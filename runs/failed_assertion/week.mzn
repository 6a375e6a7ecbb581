% What is asked for on each day of the week.
int: days;
array[int] of int: demand;
constraint assert(length(demand) = days, "demand has \(length(demand)) days and not \(days)");
solve satisfy;
