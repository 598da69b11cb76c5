begin
  integer i := 0;
  display(i)
end.
