% What the stock is worth, in cents.
int: units;
int: price;
int: worth = units * price;
solve satisfy;
