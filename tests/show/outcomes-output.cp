"One value more than a run displays."
var i: integer;
begin for i := 1 to 1001 do display(1) end.
