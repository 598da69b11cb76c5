type
account = record balance: integer;
bank = monitor; begin end;
var b: bank;
begin init b end.
