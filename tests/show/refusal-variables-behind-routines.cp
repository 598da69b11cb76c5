procedure p;
begin
end;
y: integer;
begin
  p
end.
