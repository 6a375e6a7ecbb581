include "names.mzn";
constraint card(s) = 2;
solve satisfy;
