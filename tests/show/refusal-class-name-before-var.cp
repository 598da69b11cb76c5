var count
var total: integer;
begin total := 0 end.
