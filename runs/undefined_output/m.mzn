var 0..1: x; solve satisfy; output ["\(1 div x)\n"];
