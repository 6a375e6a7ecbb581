int: n = 10 ^ 19; solve satisfy;
