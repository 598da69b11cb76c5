var next ticket: integer;
begin end.
