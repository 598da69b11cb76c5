"Arms that are never taken."
var x: integer;
begin
  x := 1;
  if x = 2 then
    display(1)
  else
    display(2);
  case x of
    1: display(3);
    5: begin
      x := 5;
      display(4)
    end
  end;
  while x > 1 do
    x := x - 1;
  for x := 2 to 1 do display(5)
end.
