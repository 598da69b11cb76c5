var x: integer;
begin
  case x of
    1: if x = 1 then display(1);
    else display(2)
  end
end.
