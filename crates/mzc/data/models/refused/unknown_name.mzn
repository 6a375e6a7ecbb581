solve minimize x;
