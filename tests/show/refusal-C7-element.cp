type m = monitor(n: integer);
  var k: integer;
  procedure entry p; begin k := n end;
  begin k := 0 end;
var a: array [1..2] of m;
begin
  init a[1](1, 2)
end.
