type colour = (red, green, blue);
var n: 0..2; c: colour; b: boolean; i: integer;
begin
  i := 3;
  n := i
end.
