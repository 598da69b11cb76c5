type p = process;
begin
  cycle
    display(1)
end;
var a: p;
begin init a end.