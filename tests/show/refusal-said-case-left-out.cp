var x: integer;
begin
  x of 1: display(1) end
end.
