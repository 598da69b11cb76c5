var i: integer;
begin
  i := 3 ** 2
end.
