% A roster: who works on which day, and who stands by.
enum NURSE;
int: days;
array[NURSE] of 1..9: wage;            % for a day of work
array[NURSE] of 1..3: skill;
array[1..days] of 1..9: need;          % the skill that a day's team has together
array[NURSE] of set of 1..days: away;

array[1..days] of var set of NURSE: team;
array[1..days] of var opt NURSE: standby;

% A day's team is skilled enough, and none of it is away.
constraint forall(d in 1..days)(sum(n in team[d])(skill[n]) >= need[d]);
constraint forall(d in 1..days, n in NURSE)(n in team[d] -> not (d in away[n]));
% Nobody works on two days in a row.
constraint forall(d in 2..days)(team[d] intersect team[d - 1] = {});
% A day whose team is one nurse has somebody else to stand by; no other day has.
constraint forall(d in 1..days)(occurs(standby[d]) <-> card(team[d]) = 1);
constraint forall(d in 1..days)(occurs(standby[d]) -> not (deopt(standby[d]) in team[d]));
constraint forall(d in 1..days, n in NURSE)(d in away[n] -> standby[d] != n);

var int: cost = sum(d in 1..days)(sum(n in team[d])(wage[n]));
solve minimize cost;
