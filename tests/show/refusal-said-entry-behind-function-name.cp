type door = monitor;
var n: integer;
function visits entry: integer;
begin visits := n end;
begin n := 0 end;
begin end.
