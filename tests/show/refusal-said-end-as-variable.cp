var first, end: integer;
begin end.
