type worker = process;
begin
  loop
    display(1)
  end
end;
var w: worker;
begin init w end.
