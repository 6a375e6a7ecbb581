int: n = 2 ^ -1; solve satisfy;
