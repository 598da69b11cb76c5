type colour = (red, green, blue);
var c: colour; warm: red..green;
begin
  c := blue;
  warm := c
end.
