"A process that goes on without end."
type
p = process;
var x: integer;
begin while true do x := 1 end;
var a: p;
begin
  init a;
  display(9)
end.
