int: n = n + 1; solve satisfy;
