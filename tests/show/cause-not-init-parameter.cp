type m = monitor; procedure entry put; begin end; begin end;
p = process(one: m); begin one.put end;
var a: m; x: p;
begin
  init x(a)
end.
