var s: set of 1..5; x: integer;
begin include(s, x) end.
