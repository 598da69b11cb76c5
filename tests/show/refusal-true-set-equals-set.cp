var b: boolean; begin b := [1] = [true] end.
