"More values than are displayed."
var i: integer;
begin for i := 1 to 1001 do display(7) end.
