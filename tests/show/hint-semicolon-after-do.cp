"Only 4 is displayed: the block is no part of the for; and what the while tests stays as it is."
var i, n: integer;
begin
  for i := 1 to 4 do ;
  begin
    display(i)
  end;
  n := 3;
  while n > 0 do;
    n := n - 1
end.
