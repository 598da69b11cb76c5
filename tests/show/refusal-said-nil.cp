var i: integer;
begin
  i := nil
end.
