type m = monitor; procedure entry put; begin end; begin end;
var a: m;
begin
  init a;
  init a
end.
