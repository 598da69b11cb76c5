var n: integer;
begin
  case n > 1 of
    true: display(1)
  end
end.
