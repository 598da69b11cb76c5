var x: [1..3];
begin x := 1 end.
