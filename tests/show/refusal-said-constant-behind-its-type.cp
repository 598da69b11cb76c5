type color = (red, green);
var c: color;
begin
  c := color.red
end.
