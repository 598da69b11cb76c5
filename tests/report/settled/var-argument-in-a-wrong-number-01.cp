procedure p(var a: integer); begin end;
begin p(
  succ, 1) end.
