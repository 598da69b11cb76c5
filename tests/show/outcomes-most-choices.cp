"A process that ends at once, beside one with more kernel calls than a table has choices."
type
p = process;
var x: integer;
begin x := 1 end;
var a: p; i: integer;
begin
  init a;
  for i := 1 to 25 do display(i)
end.
