var x: integer;
begin x is 3 end.
