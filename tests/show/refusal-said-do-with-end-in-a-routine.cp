type m = monitor
var x: integer; q: queue;
procedure entry p;
begin
  while x < 3 do
    delay(q)
  end;
  x := 0
end;
begin x := 0 end;
var a: m;
begin init a end.
