type m = monitor(k: integer); begin end;
var y: m(5);
begin
  init y
end.
