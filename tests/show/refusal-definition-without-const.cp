a = 3;
begin
  display(a)
end.
