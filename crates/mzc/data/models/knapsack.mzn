% What to carry: as much worth as the weight allows.
enum ITEM = {Tent, Stove, Rope, Lamp, Books};
array[ITEM] of int: weight = array1d(ITEM, [7, 4, 3, 2, 5]);
array[ITEM] of int: worth = array1d(ITEM, [9, 5, 4, 3, 2]);
int: capacity = 12;

array[ITEM] of var 0..1: taken;
constraint sum(i in ITEM)(weight[i] * taken[i]) <= capacity;
solve maximize sum(i in ITEM)(worth[i] * taken[i]);
