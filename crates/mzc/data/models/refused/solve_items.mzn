var bool: b;
