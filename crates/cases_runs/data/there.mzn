include "./here.mzn";
var 1..2: x;
