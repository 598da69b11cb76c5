type r = record f: integer end; var x: r; begin x.f(1) end.
