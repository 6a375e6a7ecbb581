var set of int: s; solve satisfy;
