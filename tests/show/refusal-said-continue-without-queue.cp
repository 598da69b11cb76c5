type
gate = monitor;
  var q: queue;
  procedure entry pass;
  begin delay(q) end;
  procedure entry open;
  begin continue end;
begin end;
var g: gate;
begin init g; g.open end.
