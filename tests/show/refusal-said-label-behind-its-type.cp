type color = (red, green);
var c: color;
begin
  case c of
    red: display(1);
    color.green: display(2)
  end
end.
