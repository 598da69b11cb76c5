var n: integer;
begin
  case n is
    when 0 => display(n)
  end
end.
