var a: array [0...9] of integer;
begin a[0] := 1 end.
