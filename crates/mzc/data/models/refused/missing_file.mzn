include "lib.mzn"; solve satisfy;
