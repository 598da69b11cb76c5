var c: integer;
begin c := monitor(0) end.
