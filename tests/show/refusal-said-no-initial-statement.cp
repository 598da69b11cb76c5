type gate = monitor;
  var q: queue;
  procedure entry pass;
  begin delay(q) end;
end;
var g: gate;
begin init g; g.pass end.
