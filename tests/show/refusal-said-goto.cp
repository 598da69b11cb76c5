var i: integer;
begin
  i := 0;
  goto 10;
  display(i)
end.
