type counter = monitor;
  var n: integer;
  synchronized procedure up;
  begin n := n + 1 end;
begin n := 0 end;
var c: counter;
begin init c; c.up end.
