procedure a; begin b end;
procedure b; begin a end;
begin end.
