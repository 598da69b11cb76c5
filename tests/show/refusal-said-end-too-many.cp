var n: integer;
begin
  n := 3;
  if n = 3 then display(1);
  end;
  display(n)
end.
