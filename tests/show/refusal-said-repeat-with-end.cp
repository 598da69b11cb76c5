var x: integer;
begin
  x := 0;
  repeat
    x := x + 1
  end
end.
