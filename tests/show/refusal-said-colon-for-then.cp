var b: boolean;
begin
  b := true;
  if b: display(1)
end.
