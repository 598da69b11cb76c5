type colour = (red, green, blue);
var c: colour;
begin
  c := blue;
  case c of
    red: display(1);
    green: display(2)
  end
end.
