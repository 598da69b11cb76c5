var x: integer;
begin
  display(1)


  display(2)
end.