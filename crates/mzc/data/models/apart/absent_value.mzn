% An option that is absent has no value, and a comparison of what isn't there is false.
var opt 8..10: hour;
constraint deopt(hour) <= 9;
solve satisfy;
