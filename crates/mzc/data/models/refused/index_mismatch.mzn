array[1..2] of int: a = [1]; solve satisfy;
