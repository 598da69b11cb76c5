var x: integer;
begin
  x := 0;
  repeat:
    x := x + 1
  until x = 3
end.
