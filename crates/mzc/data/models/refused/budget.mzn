int: n = sum(i in 1..9999999)(i); solve satisfy;
