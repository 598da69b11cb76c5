type
buffer = monitor;
  var x: integer;
  procedure entry put(v: integer);
  begin x := v end;
begin x := 0 end;
producer = process;
begin b.put(1) end;
var b: buffer; p: producer;
begin init b, p end.
