var s: set of 1..9; x: integer;
begin
  x := 1;
  s := s + x
end.
