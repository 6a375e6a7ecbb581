var 1..3 x; solve satisfy;
