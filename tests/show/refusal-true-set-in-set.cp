var b: boolean; begin b := [1] in [2] end.
