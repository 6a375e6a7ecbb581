% The cheapest crew that can do everything, with somebody of the old crew in it.
enum PERSON = {Ann, Ben, Cy, Dee};
enum SKILL = {Cook, Drive, Sail};
array[PERSON] of set of SKILL: can = array1d(PERSON, [{Cook, Sail}, {Drive}, {Cook, Drive}, {Sail}]);
array[PERSON] of int: wage = array1d(PERSON, [5, 2, 4, 3]);
set of PERSON: old = {Ann, Ben};
var set of PERSON: crew;
constraint forall(s in SKILL)(exists(p in crew)(s in can[p]));
constraint card(crew intersect old) >= 1;
constraint Cy in crew -> not ({Ann, Dee} subset crew);
solve minimize sum(p in crew)(wage[p]);
