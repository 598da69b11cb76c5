type r = record a: integer end; var x: r; begin display(x.a) end.
