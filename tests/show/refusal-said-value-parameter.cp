type m = monitor
var n: integer;
procedure entry p(value n: integer); begin display(n) end;
begin end;
begin end.
