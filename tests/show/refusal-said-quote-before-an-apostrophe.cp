"counts
var x: integer; "doesn't matter"
begin
  x := 1 "sets"
end.
