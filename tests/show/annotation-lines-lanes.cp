type m = monitor;
  var n: integer;
  "(* invariant (n <
      2) and
      (n >= 0)
   *)"
  procedure entry go; begin n := 2 end;
begin end;
var b: m;
begin init b; b.go end.
