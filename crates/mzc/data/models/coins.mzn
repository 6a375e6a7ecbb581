% An amount in as few coins as possible, from those that are at hand.
enum COIN;
int: amount;
array[COIN] of int: worth;
array[COIN] of int: stock;
array[COIN] of var 0..amount: paid;
constraint sum(c in COIN)(worth[c] * paid[c]) = amount;
constraint forall(c in COIN)(paid[c] <= stock[c]);
solve minimize sum(paid);
output ["\(c): \(paid[c])\n" | c in COIN] ++ ["\(sum(paid)) coins\n"];
