% How many codes there are, two of whose digits are fixed.
int: digits;
int: codes = 10 ^ (digits - 2);
var 1..codes: code;
solve satisfy;
