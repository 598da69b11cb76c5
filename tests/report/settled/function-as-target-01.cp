function f: boolean;
begin f := true end;
begin
  f := 1
end.
