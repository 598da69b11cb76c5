type shop = monitor
procedure entry sell(s: shop); begin end;
begin end;
begin end.
