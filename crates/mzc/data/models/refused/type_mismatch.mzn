bool: b = 1; solve satisfy;
