var x: integer;
begin
  repeat
    x := x + 1;
    if x = 3 then
      display(x)
    end
  until x = 5
end.
