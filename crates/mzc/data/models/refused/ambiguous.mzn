int: n = length([]); solve satisfy;
