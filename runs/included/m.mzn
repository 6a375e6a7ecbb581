% A day's roster: who works which shift.
include "shifts.mzn";
include "rules.mzn";
solve satisfy;
