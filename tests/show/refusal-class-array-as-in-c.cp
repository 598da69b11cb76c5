type buffer = monitor;
  var place[3]: integer; count: integer;
  procedure entry put(x: integer); begin place[count] := x end;
begin count := 0 end;
var b: buffer;
begin init b; b.put(1) end.
