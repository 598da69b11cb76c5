var x: integer;
begin
  if x = 0 then display(1);
  x := 2;
  end;
  display(x)
end.
