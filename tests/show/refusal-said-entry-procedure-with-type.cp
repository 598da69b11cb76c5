type box = monitor;
  var n: integer;
  procedure entry get: integer;
  begin get := n end;
begin n := 1 end;
var b: box;
begin init b; display(b.get) end.
