type w = process(n: integer); begin end;
begin w(1) end.
