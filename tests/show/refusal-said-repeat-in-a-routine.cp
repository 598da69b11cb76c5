type m = monitor
var x: integer;
procedure entry p;
begin
  repeat
    begin
      x := x - 1
    end
end;
begin x := 1 end;
var a: m;
begin init a; a.p end.
