begin
  for abs := 1 to true do
end.
