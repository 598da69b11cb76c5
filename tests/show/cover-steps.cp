"A loop that takes more steps than there may be."
var x: integer;
begin
  x := 0;
  while x < 10 do
    x := x + 1;
  display(x)
end.
