var x: integer;
begin
  x := 3;
  case x of
    1: display(1);
    otherwise display(2)
  end
end.
