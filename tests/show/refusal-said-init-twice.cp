type m = monitor begin end;
p = process(x: m);
begin display(1) end;
var a: m; b: p;
begin init a, init b(a) end.
