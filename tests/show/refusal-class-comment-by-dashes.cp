-- counts to three
var i: integer;
begin for i := 1 to 3 do display(i) end.
