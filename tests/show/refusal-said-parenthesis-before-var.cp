type p = process(n: integer;
var i: integer;
begin end;
begin end.
