var n: integer;
begin
  n := 12;
  case n of
    0..9: display(1);
    10: display(2)
  end
end.
