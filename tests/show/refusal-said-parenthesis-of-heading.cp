type
box = monitor;
  var n: integer;
  procedure entry put(x: integer;
  begin n := x end;
begin n := 0 end;
var b: box;
begin init b end.
