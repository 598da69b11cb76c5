"A variable that has changed in the call in which the run stops"
type m = monitor;
  var n: integer;
  procedure entry go(x: integer);
  begin
    n := x;
    n := 7 div (n - x)
  end;
begin n := 1 end;
var b: m;
begin
  init b;
  b.go(3)
end.
