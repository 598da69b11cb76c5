type m = monitor
var x: integer;
procedure entry p:
begin x := 1 end;
begin x := 0 end;
begin end.
