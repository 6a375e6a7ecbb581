constraint assert(1 > 2, "too small"); solve satisfy;
