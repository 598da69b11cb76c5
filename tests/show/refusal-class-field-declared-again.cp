type point = record
  x, y: integer;
  inner: record x: integer end;
  y: char
end;
begin end.
