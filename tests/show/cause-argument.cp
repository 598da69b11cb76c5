type small = 1..3;
c = class; procedure entry put(n: small); begin end; begin end;
var x: c; i: integer;
begin
  init x;
  i := -4;
  x.put(i)
end.
