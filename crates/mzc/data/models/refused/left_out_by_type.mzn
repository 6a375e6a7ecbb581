var 1..3: n; constraint 2 in 1..n; solve satisfy;
