include "names.mzn";
constraint p -> x < y;
solve satisfy;
