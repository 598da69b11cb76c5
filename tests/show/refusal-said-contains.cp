type color = (red, green);
palette = set of color;
var p: palette;
begin
  if p contains red then display(0)
end.
