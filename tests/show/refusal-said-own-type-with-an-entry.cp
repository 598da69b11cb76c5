type shop = monitor
procedure entry sell; begin end;
procedure entry go; begin shop.sell end;
begin end;
begin end.
