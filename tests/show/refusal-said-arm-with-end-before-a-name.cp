type color = (red, green);
var x: color;
begin
  case x of
    red: if x = red then
         display(1)
       end;
    green: display(2)
  end;
  display(3)
end.
