type
monitor buffer;
  var n: integer;
begin n := 0 end;
begin end.
