var b: boolean;
begin
  b := true;
  while b: b := false
end.
