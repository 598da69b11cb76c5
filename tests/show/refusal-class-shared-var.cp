type m = monitor; begin end;
shared var x: m;
begin init x end.
