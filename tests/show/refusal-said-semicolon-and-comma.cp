type p = process begin end;
var a, b: p;
begin
  init a;, b
end.
