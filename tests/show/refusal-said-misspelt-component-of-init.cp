type m = monitor begin end;
p = process(a: m); begin end;
var c: m; right: p;
begin
  init c, irght(c)
end.
