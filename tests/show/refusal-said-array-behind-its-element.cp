var x: integer array;
begin end.
