var 1..3: x; var 1..3: y; constraint x < y; solve satisfy;
