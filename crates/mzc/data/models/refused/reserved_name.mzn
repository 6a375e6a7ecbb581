var bool: X_a; solve satisfy;
