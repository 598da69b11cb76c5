procedure p;
begin
  var x: integer;
  x := 1
end;
begin p end.
