type box = monitor; begin end;
worker = process(box b);
begin end;
begin end.
