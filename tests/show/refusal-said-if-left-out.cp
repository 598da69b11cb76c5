var x: integer;
begin
  x = 0 then display(x)
end.
