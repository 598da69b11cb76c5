var x: 1..2; begin end.
