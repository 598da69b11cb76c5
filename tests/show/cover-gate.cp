"Two processes meet at the gate of b. Before they are started the program has called a alone."
type
m = monitor;
procedure entry a;
begin display(1) end;
procedure local;
begin display(2) end;
procedure entry b;
begin local end;
begin end;
p = process(x: m);
begin x.b end;
var c: m; q, r: p;
begin
  init c;
  c.a;
  init q(c), r(c)
end.
