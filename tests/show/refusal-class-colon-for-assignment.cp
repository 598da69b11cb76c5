var x, y: integer;
begin x : y end.
