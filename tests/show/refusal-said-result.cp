function double(n: integer): integer;
begin
  result := 2 * n
end;
begin display(double(4)) end.
