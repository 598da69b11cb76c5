type box = monitor;
  var x: integer;
  procedure entry put(v: integer);
  begin x := v end;
begin x := 0 end;
var b: box;
procedure fill(c: box);
begin c.put(1) end;
begin init b; fill(b) end.
