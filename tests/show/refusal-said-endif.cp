var x: integer;
begin
  if x = 1 then
    display(1);
  endif;
  display(2)
end.
