begin
  display(1); "never closed
end.
