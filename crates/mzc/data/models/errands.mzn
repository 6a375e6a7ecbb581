% Errands at some hour, or not at all: two hours apart, and as much done as possible.
enum ERRAND = {Bank, Post, Shop};
array[ERRAND] of int: worth = array1d(ERRAND, [3, 2, 2]);
array[ERRAND] of var opt 9..12: hour;
constraint forall(a, b in ERRAND where a < b)(
  occurs(hour[a]) /\ occurs(hour[b]) -> abs(deopt(hour[a]) - deopt(hour[b])) >= 2
);
% An option that is absent equals no number: so the bank is not left out.
constraint hour[Bank] = 9;
constraint occurs(hour[Post]) -> deopt(hour[Post]) < 11;
constraint absent(hour[Shop]) \/ hour[Shop] = 12;
solve maximize sum(e in ERRAND where occurs(hour[e]))(worth[e]);
