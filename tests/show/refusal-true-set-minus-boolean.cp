type s = set of 0..9; var v: s; begin v := [1, 2] - true end.
