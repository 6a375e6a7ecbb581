int: n = 1 div 0; solve satisfy;
