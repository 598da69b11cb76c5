type colour = (red, green, blue);
var n: 0..1; warm: red..green; i: integer;
begin
  i := 2;
  n := i
end.
