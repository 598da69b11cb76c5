type small = 1..3;
  n: integer;
begin n := 1 end.
