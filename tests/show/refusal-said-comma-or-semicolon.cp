type m = monitor; begin end;
var y, z: m;
begin
  init y
       z
end.
