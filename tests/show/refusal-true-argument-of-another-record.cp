type r = record f: integer end; s = record f: integer end; var x: r;
procedure p(y: s); begin end; begin p(x) end.
