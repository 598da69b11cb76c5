type worker = process;
begin
  for i := 1 to 10 do display(i)
end;
var w: worker;
begin init w end.
