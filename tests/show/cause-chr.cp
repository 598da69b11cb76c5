var c: char; i: integer;
begin
  i := 200;
  c := chr(i)
end.
