var i: integer;
begin
  for (i = 0; i < 5; i++) do
    display(i)
end.
