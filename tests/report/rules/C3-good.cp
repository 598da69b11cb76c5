const b = 1; c = b; begin end.
