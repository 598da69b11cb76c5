type fork = monitor; procedure entry take; begin end; begin end;
var left: fork;
begin init left; left take end.
