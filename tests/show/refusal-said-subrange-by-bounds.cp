var n: 0..5;
procedure next(var x: integer);
begin x := x + 1 end;
begin
  next(n)
end.
