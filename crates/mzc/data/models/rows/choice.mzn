include "names.mzn";
constraint if p then x else y endif = 3;
solve satisfy;
