var x: integer;
begin
  case x 1: x := 2 end
end.
