% Who takes which shift of a day.
enum NURSE;
array[NURSE] of 1..3: level;      % what each nurse may do
array[int] of 1..3: need;         % what each shift asks for
array[NURSE, int] of bool: away;  % whether a nurse is away in a shift
int: shifts = length(need);

constraint assert(index_set_2of2(away) = 1..shifts, "away has a column for each of \(shifts) shifts");

% The numbers of those who can take a shift.
function set of int: able(int: shift) =
  {enum2int(n) | n in NURSE where level[n] >= need[shift] /\ not away[n, shift]};

var able(1): early;
var able(2): late;
var able(3): night;
var int: hours;

constraint early != late;
constraint late != night;
constraint night > need[1];
constraint hours <= 8 * shifts;
solve satisfy;
