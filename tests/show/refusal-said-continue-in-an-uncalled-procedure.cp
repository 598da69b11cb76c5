type m = monitor; var q: queue; procedure w; begin continue(q) end; procedure entry e; var w: integer; begin w := 1; w := 2 end; begin end; begin end.
