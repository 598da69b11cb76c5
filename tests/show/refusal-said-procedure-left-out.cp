type m = monitor
var n: integer;
  fill;
begin n := 1 end;
begin n := 0 end;
begin end.
