solve satisfy;
