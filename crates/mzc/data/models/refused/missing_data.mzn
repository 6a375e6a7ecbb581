int: n; solve satisfy;
