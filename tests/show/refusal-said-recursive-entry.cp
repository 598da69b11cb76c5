type m = monitor
var x: integer;
procedure entry p(n: integer);
begin
  x := x + 1;
  if n > 0 then p(n - 1)
end;
begin x := 0 end;
var a: m;
begin init a; a.p(3) end.
