type m = monitor
var way: integer; q: queue;
procedure wait; begin delay(q) end;
procedure entry p; begin wat(1) end;
begin end;
begin end.
