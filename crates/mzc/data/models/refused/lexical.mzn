var 1..3: x; constraint x ! 2; solve satisfy;
