begin
  display('a)
end.
