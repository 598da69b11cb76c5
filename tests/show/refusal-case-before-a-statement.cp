var x: integer;
begin
  case x if x = 1 then x := 2 end
end.
