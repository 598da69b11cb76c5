var b: boolean; begin b := [1] or true end.
