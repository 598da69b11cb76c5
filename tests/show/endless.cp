var x: integer;
begin
  cycle x := 0 end
end.
