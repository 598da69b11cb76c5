type colour = (red, green, blue);
var c: colour;
begin
  c := blue;
  c := succ(c)
end.
