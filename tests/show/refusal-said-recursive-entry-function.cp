type m = monitor
function entry f(n: integer): integer;
begin
  if n = 0 then f := 1 else f := n * f(n - 1)
end;
begin end;
var a: m;
begin init a; display(a.f(3)) end.
