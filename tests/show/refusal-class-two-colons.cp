type fork = monitor; procedure entry take; begin end; begin end;
var f: fork;
begin init f; f::take end.
