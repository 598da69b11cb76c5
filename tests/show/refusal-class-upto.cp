var i: integer;
begin for i := 1 upto 3 do display(i) end.
