type m = monitor(k: integer); begin end; var ys: array [1..2] of m; begin init ys[1](true) end.
