"A process that never comes to a choice again."
type
m = monitor;
  procedure entry call; begin end;
begin end;
p = process(c: m); var i: integer;
begin
  c.call;
  cycle
    i := 1 - i
  end
end;
var c: m; a: p;
begin init c, a(c) end.
