type
counter = monitor;
  var n: integer;
  procedure entry add;
  begin n := n + 1 end;
begin n := 0 end;
end;
var c: counter;
begin init c; c.add end.
