var s: set of 0..10; i: integer;
begin
  i := 20;
  s := [1, i]
end.
