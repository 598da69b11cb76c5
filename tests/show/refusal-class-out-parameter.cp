procedure next(out x: integer);
begin x := x + 1 end;
var n: integer;
begin next(n) end.
