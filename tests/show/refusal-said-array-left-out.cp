var a: [1..3] of integer;
begin end.
