type m = monitor(size: integer);
  var n: integer;
  "(* invariant n < size *)"
begin n := 3 end;
var b: m;
begin init b(3) end.
