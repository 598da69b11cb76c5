var x: integer;
begin
  case x of begin
    1: display(1);
    2: display(2)
  end
end.
