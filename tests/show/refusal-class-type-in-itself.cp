type list = record head: integer; tail: list end;
begin end.
