"The parameter gets its own value back, and not that of the slot."
type box = monitor;
  var slot: integer;
  procedure entry get(var slot: integer);
  begin slot := slot + 0 end;
  procedure entry put(v: integer);
  begin slot := v end;
begin slot := 0 end;
var b: box; n: integer;
begin init b; b.put(3); b.get(n); display(n) end.
