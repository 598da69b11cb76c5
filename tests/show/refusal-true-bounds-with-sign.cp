var x: -1..true; begin end.
