function one integer;
begin one := 1 end;
begin display(one) end.
