var x: integer;
begin
  "(* assert 7 div x = 1 *)"
  display(x)
end.
