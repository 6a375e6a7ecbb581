% The fewest stations whose reach covers all towns.
enum TOWN = {A, B, C, D, E, F};
enum STATION = {North, East, South, West};
array[STATION] of set of TOWN: reach = array1d(STATION, [{A, B, C}, {C, D}, {D, E, F}, {A, F}]);
var set of STATION: built;
constraint forall(t in TOWN)(exists(s in STATION)(s in built /\ t in reach[s]));
solve minimize card(built);
