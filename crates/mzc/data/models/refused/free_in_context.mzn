constraint not let { var bool: b } in b; solve satisfy;
