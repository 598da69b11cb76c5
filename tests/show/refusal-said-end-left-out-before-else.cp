var x: integer;
begin
  if x = 1 then begin
    x := 2;
  else
    x := 3
  end
end.
