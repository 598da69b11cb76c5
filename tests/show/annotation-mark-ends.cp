type m = monitor;
  var n: integer; q: queue;
  "(* invariant
      n < 2 *)"
  procedure entry go; begin n := n + 1; delay(q) end;
begin n := 0 end;
p = process(a: m); begin a.go end;
var a: m; r, s: p;
begin init a, r(a), s(a) end.
