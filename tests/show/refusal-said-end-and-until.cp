var x: integer;
begin
  repeat
    x := x + 1
  end
  until x = 3
end.
