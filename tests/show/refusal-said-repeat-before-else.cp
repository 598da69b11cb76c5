var i: integer;
begin
  if i = 0 then
    repeat
      i := i + 1
  else
    i := 2
end.
