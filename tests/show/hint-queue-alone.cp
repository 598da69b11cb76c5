"The reader is never let go on: put opens no queue."
type box = monitor;
  var full: boolean; x: integer; ready: queue;
  procedure entry put(v: integer);
  begin x := v; full := true end;
  procedure entry get(var v: integer);
  begin if not full then delay(ready); v := x end;
begin full := false end;
reader = process(b: box);
  var v: integer;
begin b.get(v); display(v) end;
var b: box; r: reader;
begin init b, r(b); b.put(7) end.
