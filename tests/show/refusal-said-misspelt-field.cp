type pair = record first, second: integer end;
var p: pair;
begin p.frist := 1 end.
