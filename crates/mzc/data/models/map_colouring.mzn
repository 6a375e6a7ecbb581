% Neighbours have different colours.
enum REGION = {WA, NT, SA, Q, NSW, V, T};
enum COLOUR = {Red, Green, Blue};
array[int, 1..2] of REGION: border = [|
  WA, NT | WA, SA | NT, SA | NT, Q | SA, Q | SA, NSW | SA, V | Q, NSW | NSW, V |];
array[REGION] of var COLOUR: colour;
constraint forall(b in index_set_1of2(border))(colour[border[b, 1]] != colour[border[b, 2]]);
constraint colour[WA] = Red /\ colour[NT] = Green;
solve satisfy;
