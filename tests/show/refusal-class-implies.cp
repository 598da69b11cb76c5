type stock = monitor;
  var count: integer; full: boolean;
  "(* invariant count = 3 => full *)"
  procedure entry add; begin count := count + 1; full := count = 3 end;
begin count := 0 end;
var s: stock;
begin init s; s.add end.
