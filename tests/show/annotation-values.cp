const limit = 3;
type
  color = (red, green, blue);
  m = monitor;
    var a: array [1..2] of boolean; r: record x, y: integer end; q: array [1..2] of queue; s: set of color; c: color; n: integer;
    "(* invariant (a[n + 1] or (c = red)) and empty(q[n + 1]) and (r.x < 5) and not (blue in s) and (n < limit) *)"
    procedure entry go;
    begin r.y := 7; s := [red, green]; c := green end;
  begin n := 0; c := red end;
var b: m;
begin
  init b;
  b.go
end.
