type m = monitor(k: integer); begin end;
var y: m;
begin
  init y 5
end.
