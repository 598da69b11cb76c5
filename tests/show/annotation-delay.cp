type m = monitor;
  var n: integer; q: queue;
  "(* invariant
      n < 2 *)"
  procedure sleep; begin delay(q) end;
  procedure entry wait; begin n := 2; sleep; n := 1 end;
begin n := 0 end;
var b: m;
begin init b; b.wait end.
