type m = monitor
var x, y, z: integer; q: queue;
procedure entry p;
begin
  while x > 0 do
  begin
    if y > 0 then
      delay(q)
    end;
    z := 1
  end;
  x := 2;
  y := 3
end;
procedure entry r;
begin x := 0 end;
begin x := 0 end;
var a: m;
begin init a end.
