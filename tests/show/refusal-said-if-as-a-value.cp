var x: integer;
begin
  x := if x = 1 then 2 else 3
end.
