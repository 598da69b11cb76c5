type
box = monitor;
  var n: integer;
  procedure entry put(x: integer);
  begin n := x end;
worker = process;
begin end;
var w: worker;
begin init w end.
