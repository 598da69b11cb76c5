type sign = process(x: integer);
begin
  if x > 0 then
    display(1);
  end if;
  display(0)
end;
var s: sign;
begin init s(3) end.
