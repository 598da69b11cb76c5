type m = monitor;
  var count: integer;
  function entry total: integer;
  begin total := 0; total := total + count end;
begin count := 1 end;
var x: m;
begin init x; display(x.total) end.
