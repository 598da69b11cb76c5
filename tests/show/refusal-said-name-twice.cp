type m = monitor; begin end;
var y: m;
begin
  init y y
end.
