begin
  if true then begin display(1) else display(2) end
end.
