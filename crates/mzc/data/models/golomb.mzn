% Marks on a ruler whose distances all differ: the shortest ruler with so many marks.
int: m = 5;
int: longest = m * m;
array[1..m] of var 0..longest: mark;
array[int] of var int: distance = [mark[j] - mark[i] | i, j in 1..m where i < j];
constraint mark[1] = 0;
constraint forall(i in 2..m)(mark[i - 1] < mark[i]);
constraint forall(a, b in index_set(distance) where a < b)(distance[a] != distance[b]);
constraint distance[1] < distance[length(distance)];
solve minimize mark[m];
