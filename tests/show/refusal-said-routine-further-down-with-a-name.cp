procedure a; begin b end;
procedure b; var a: integer; begin a := 1 end;
begin end.
