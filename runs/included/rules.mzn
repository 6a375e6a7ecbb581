include "shifts.mzn";

% Nobody works two shifts in a row,
constraint early != late;
constraint late != night;
% and the first person takes no night.
constraint night > 1;
