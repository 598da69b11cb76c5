var n: integer;
begin
  else n := 1
end.
