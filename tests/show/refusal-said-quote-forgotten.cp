"a program
type m = monitor
var x: integer;
begin x := 0 end;
var a: m;
begin
  init a "start it";
end.
