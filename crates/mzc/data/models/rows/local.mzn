include "names.mzn";
constraint let { var 1..9: d } in d * x = y;
solve satisfy;
