type producer = process begin end;
var p producer;
begin init p end.
