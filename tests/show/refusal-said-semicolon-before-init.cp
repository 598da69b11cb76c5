type user = process; begin end;
var a, b: user;
begin init a init b end.
