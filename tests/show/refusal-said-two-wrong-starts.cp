type
box = monitor; begin end;
worker = process(b: box); begin end;
var b: box; n: integer; w: worker;
begin
  init b, w(n), n
end.
