% 67 cents in as few coins as possible.
var 0..67: ones;
var 0..67: fives;
var 0..67: twenties;
constraint ones + 5 * fives + 20 * twenties = 67;
solve minimize ones + fives + twenties;
