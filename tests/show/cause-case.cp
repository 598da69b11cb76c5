var n: integer;
begin
  n := 4;
  case n of
    1, 2: display(1);
    3: display(2)
  end
end.
