var b: boolean; begin b := [1] = 1 end.
