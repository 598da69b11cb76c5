procedure p(a, b: integer);
begin display(a + b) end;
begin
  p(1; 2)
end.
