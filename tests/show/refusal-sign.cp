var a: integer;
begin
  a := 3 # 4
end.
