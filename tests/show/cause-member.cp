var s: set of 0..100; i: integer;
begin
  i := 128;
  s := [1, i]
end.
