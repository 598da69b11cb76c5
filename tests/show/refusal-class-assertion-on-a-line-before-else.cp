var n: integer;
begin
  if n = 0 then begin
    n := 1
  end
  "(* assert n = 1 *)"
  else n := 2
end.
