var x: set of 'a'..9; begin end.
