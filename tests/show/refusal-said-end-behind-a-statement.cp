type m = monitor
var x: integer;
procedure entry p;
begin x := 1;
  if x = 1 then x := 2 end;
procedure entry q;
begin x := 3
  end;
  x := 4
end;
begin x := 0 end;
var a: m;
begin init a end.
