function one: integer;
begin
  return(1)
end;
begin display(one) end.
