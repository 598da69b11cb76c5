type small = 1..3;
  n, m: integer;
begin n := 1 end.
