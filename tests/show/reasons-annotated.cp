"Annotations change nothing of why nobody goes on."
type m = monitor;
  var n: integer; q: queue;
  "(* invariant n >= 0 *)"
  procedure entry wait; begin delay(q) end;
  procedure entry signal; begin n := n + 1; "(* assert n > 0 *)" continue(q) end;
begin n := 0 end;
p = process(a, b: m); begin b.wait; "(* assert true *)" a.signal end;
var a, b: m; x: p; n: integer;
begin
  "(* assert n = 0 *)"
  init a, b, x(a, b); a.wait; "(* assert n = 0 *)" b.signal
end.
