type m = monitor;
  var n: integer;
  procedure entry a; var k: integer; begin k := n; n := k + 1 end;
  procedure entry b; begin n := k end;
begin n := 0 end;
begin end.
