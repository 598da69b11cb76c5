var n, m: integer;
begin
  case n of
    0: n := 1; m := 1;
    1: n := 0
  end
end.
