var n: integer;
begin
  n := 2;
  case n of
    1: display(1);
    2: display(2)
  else display(0)
  end
end.
