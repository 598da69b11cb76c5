type outer = monitor;
  type inner = class;
  begin end;
begin end;
begin end.
