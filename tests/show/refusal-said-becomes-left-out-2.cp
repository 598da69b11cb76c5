type light = (red, green);
var l, m: light;
begin
  l m
end.
