"counts
var x: integer;
begin
  x := 1; "sets
  display(x)
end.
