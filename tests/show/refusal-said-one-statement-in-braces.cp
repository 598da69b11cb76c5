var i: integer;
begin
  i := 0;
  if (i = 0) { display(i) }
end.
