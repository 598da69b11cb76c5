type m = monitor
var q: array [1..2] of queue;
procedure entry p; begin delay(q) end;
begin end;
begin end.
