type counter = monitor;
  var n: integer;
  entry procedure up;
  begin n := n + 1 end;
begin n := 0 end;
begin end.
