"The worker may come to the box before it is initialised."
type box = monitor;
  var x: integer;
  procedure entry put(v: integer);
  begin x := v end;
begin x := 0 end;
worker = process(b: box; n: integer);
begin b.put(n) end;
var b: box; w: worker;
begin init w(b, 1), b end.
