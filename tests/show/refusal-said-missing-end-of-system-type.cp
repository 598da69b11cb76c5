type worker = process;
begin
  cycle display(1) end;
other = process;
begin end;
var w: worker;
begin init w end.
