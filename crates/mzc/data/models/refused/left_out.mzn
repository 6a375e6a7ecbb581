var float: x; solve satisfy;
