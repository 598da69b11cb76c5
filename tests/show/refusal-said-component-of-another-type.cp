type box = monitor;
  var x: integer;
  procedure entry put(v: integer);
  begin x := v end;
begin x := 0 end;
  other = monitor;
begin end;
  worker = process(b: box);
begin b.put(1) end;
var o: other; w: worker;
begin init o, w(o) end.
