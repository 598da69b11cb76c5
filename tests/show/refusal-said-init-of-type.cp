type box = monitor;
  var x: integer;
  procedure entry put(v: integer);
  begin x := v end;
begin x := 0 end;
var b: box;
begin init box end.
