type m = monitor; var n: 0..2; procedure entry more; begin n := n + 1 end; begin end;
p = process(b: m); begin cycle b.more end end;
var b: m; x, y: p;
begin
  init b, x(b), y(b)
end.
