type customer = process begin end;
var a: array [1..customers] of integer;
begin end.
