var x: integer:
begin end.
