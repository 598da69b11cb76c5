var c: char;
begin
  c := c + 1
end.
