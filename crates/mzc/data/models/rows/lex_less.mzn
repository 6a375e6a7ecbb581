include "names.mzn";
constraint lex_less(d, e);
solve satisfy;
