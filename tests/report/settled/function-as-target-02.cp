begin
  for abs := 1 to 2 do
end.
