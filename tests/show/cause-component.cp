type c = class; procedure entry put; begin end; begin end;
var xs: array [1..2] of c; i: integer;
begin
  init xs[1], xs[2];
  i := 3;
  xs[i].put
end.
