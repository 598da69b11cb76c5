type m = monitor; begin end;
var y: m;
begin
  y.init
end.
