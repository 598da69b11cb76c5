begin
  display(40000)
end.
