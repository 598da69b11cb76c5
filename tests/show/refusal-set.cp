var s: set of char;
begin
  display(s)
end.
