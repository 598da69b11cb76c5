function f: integer; begin end;
begin
  f := true
end.
