enum DAY = {Mon, Tue, Wed};
array[DAY] of var set of int: shifts;
solve satisfy;
