type color = (red, green);
palette = set of color;
var p: palette;
begin
  p := [];
  p := p or red
end.
