int: n = 3000000000000000000; solve satisfy;
