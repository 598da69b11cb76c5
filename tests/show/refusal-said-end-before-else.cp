var x: integer;
procedure choose;
begin
  if x = 1 then x := 2
  end
  else x := 3
end;
begin choose end.
