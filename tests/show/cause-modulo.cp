var a: integer;
begin
  display(9 mod a)
end.
