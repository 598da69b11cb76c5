var x: integer;
begin
  if x = 0 then
    display(1);
  end if;
  display(2)
end.
