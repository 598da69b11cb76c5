type w = process begin end;
m = monitor
var a: array [1..3] of w;
begin end;
begin end.
