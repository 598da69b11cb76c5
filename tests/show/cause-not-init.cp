type m = monitor; procedure entry put; begin end; begin end;
var a: array [1..2] of m;
begin
  init a[1];
  a[2].put
end.
