type m = monitor
var n: integer; q: queue;
procedure entry p; begin if n = 0 then delay(q) end;
n := 3 end;
begin n := 0 end;
begin end.
