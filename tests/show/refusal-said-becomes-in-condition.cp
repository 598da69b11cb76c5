var x: integer;
begin
  x := 1;
  if x := 1 then display(x)
end.
