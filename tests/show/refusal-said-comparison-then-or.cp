var x: integer; b: boolean;
begin
  x := 2; b := false;
  if x = 1 or b then display(x)
end.
