% Three houses in a row: who lives where, and what each drinks.
enum WHO = {Ann, Bert, Cleo};
enum DRINK = {Tea, Milk, Water};
array[WHO] of var 1..3: house;
array[WHO] of var DRINK: drink;
constraint forall(a, b in WHO where a < b)(house[a] != house[b] /\ drink[a] != drink[b]);
% Ann lives in the first house, and next to her somebody drinks milk.
constraint house[Ann] = 1;
constraint exists(w in WHO)(house[w] = house[Ann] + 1 /\ drink[w] = Milk);
% Bert doesn't drink milk, and Cleo's drink stands before Ann's.
constraint drink[Bert] != Milk;
constraint drink[Cleo] < drink[Ann];
solve satisfy;
