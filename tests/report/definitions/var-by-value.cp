var y: integer; procedure look(var v: integer); var w: integer; begin display(w) end; begin y := 7; look(y) end.
