type m = monitor
var n: integer;
begin n := 0 end;
procedure entry p; begin n := n + 1 end;
begin end.
