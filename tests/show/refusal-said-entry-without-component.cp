type
box = monitor;
  var n: integer;
  procedure entry put(x: integer);
  begin n := x end;
begin n := 0 end;
worker = process(b: box);
begin
  put(1)
end;
var b: box; w: worker;
begin init b, w(b) end.
