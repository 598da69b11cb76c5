procedure double(n: integer): integer;
begin
  double := 2 * n
end;
begin display(double(4)) end.
