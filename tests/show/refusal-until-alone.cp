begin
  until true
end.
