type color = (red, green);
var seen: set of color;
begin
  seen.add(red)
end.
