include "names.mzn";
var opt 1..9: o;
constraint occurs(o) -> deopt(o) < x;
solve satisfy;
