var x: integer;
begin
  x := 3;
  repeat
  begin
    x := x - 1;
    display(x)
  end;
  display(7)
end.
