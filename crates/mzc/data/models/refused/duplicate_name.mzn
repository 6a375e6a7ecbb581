int: n = 1; int: n = 2; solve satisfy;
