type m = monitor; begin end;
p = process(x: m);
begin init x end;
begin end.
