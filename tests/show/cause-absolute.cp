var a: integer;
begin
  a := -32767 - 1;
  a := abs(a)
end.
