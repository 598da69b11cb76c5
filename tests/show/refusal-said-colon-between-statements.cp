var x: integer;
begin x := 1: x := 2 end.
