type c = 1..9; var x: c; begin end.
