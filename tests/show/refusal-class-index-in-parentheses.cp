var place: array [0..1] of integer; x: integer;
begin x := place(0) end.
