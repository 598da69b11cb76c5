var s: set of 1..5; x: integer;
begin s[x] := true end.
