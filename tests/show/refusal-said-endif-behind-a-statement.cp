var x: integer;
begin if x = 1 then display(1) else if x = 2 then display(2) endif end.
