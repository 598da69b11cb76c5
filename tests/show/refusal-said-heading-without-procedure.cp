type m = monitor
var n: integer; q: queue;
procedure entry p; begin if n = 0 then delay(q) end;
put(x: integer); begin n := x end;
begin n := 0 end;
begin end.
