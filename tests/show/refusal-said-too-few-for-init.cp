type box = monitor;
  var x: integer;
  procedure entry put(v: integer);
  begin x := v end;
begin x := 0 end;
  worker = process(b: box; n: integer);
begin b.put(n) end;
var b: box; w: worker;
begin init b, w(b) end.
