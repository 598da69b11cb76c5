var n: 0..5; i: integer;
begin
  i := 7;
  n := i
end.
