var i: integer;
begin
  while i < 3 do {
    i := i + 1;
  }
end.
