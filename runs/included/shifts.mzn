% The person of each shift, by number.
var 1..4: early;
var 1..4: late;
var 1..4: night;
