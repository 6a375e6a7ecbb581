constraint not 1; solve satisfy;
