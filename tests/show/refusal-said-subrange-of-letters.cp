var c: 'a'..'f';
procedure next(var x: char);
begin x := succ(x) end;
begin
  next(c)
end.
