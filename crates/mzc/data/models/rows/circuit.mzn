include "names.mzn";
constraint circuit(d);
solve satisfy;
