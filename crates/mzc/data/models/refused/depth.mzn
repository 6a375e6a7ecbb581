function int: f(int: n) = f(n + 1); int: k = f(1); solve satisfy;
