type shop = monitor; begin end; guest = process(s: shop; n: integer); begin end;
var s: shop; guests: array [1..2] of guest;
begin
  init s, guests[s, 1]
end.
