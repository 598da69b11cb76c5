var x: integer;
begin x := true end.
