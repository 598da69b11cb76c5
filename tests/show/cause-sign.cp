var a: integer;
begin
  a := -32767 - 1;
  a := -a
end.
