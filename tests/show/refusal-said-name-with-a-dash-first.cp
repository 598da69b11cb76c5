var _x: integer;
begin end.
