var x: integer;
begin
  set x to 3
end.
