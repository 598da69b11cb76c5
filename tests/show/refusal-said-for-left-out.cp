var x: integer;
begin
  x := 1 to 3 do display(x)
end.
