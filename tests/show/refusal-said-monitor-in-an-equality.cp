type m = monitor(k: integer); begin end;
var counter: m;
begin counter = monitor(0) end.
