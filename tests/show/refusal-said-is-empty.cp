type m = monitor
var q: queue;
procedure entry p; begin if q is empty then continue(q) end;
begin end;
begin end.
