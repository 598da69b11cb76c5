type m = monitor
var n: integer;
procedure entry p;
begin n := 1 end;
end;
procedure entry q;
begin n := 2 end;
begin n := 0 end;
begin end.
