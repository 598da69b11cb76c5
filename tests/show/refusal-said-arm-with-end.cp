var x: integer;
begin
  case x of
    1: if x = 1 then
         display(1)
       end;
    2: display(2)
  end;
  display(3)
end.
