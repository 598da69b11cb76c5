var v: integer;
begin
  v := 1;
  if 0 < v < 3 then display(v)
end.
