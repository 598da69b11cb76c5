var x: integer;
begin
  if x = 0 then;
    display(1)
  else
    display(2)
end.
