type sem = monitor
begin end;
user = process(s: sem; n: integer);
begin end;
var s: sem; u: user;
begin
  init s;
  user(s, 1)
end.
