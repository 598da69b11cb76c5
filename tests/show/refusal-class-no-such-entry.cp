type
buffer = monitor;
  var x: integer;
  procedure entry put(v: integer);
  begin x := v end;
  procedure entry get(var v: integer);
  begin v := x end;
begin x := 0 end;
var b: buffer; y: integer;
begin init b; b.send(1); b.get(y) end.
