var b: boolean; begin b := [1] < [2] end.
