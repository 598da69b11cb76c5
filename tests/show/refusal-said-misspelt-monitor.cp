type box = moniter;
  var x: integer;
begin x := 0 end;
var b: box;
begin init b end.
