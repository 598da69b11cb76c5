var 1st: integer;
begin end.
