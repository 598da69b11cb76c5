type
  var n: integer;
begin end;
begin end.
