include "./there.mzn";
solve satisfy;
