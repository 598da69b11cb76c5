type m = monitor
var q: queue; n: integer;
procedure entry p; begin if q then n := 1 end;
begin n := 0 end;
begin end.
