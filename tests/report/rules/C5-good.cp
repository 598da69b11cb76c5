var x: boolean; begin x := true end.
