"The count of the monitor stays 0."
type counter = monitor;
  var count: integer;
  procedure entry up;
  var count: integer;
  begin count := count + 1 end;
  procedure entry show;
  begin display(count) end;
begin count := 0 end;
var c: counter;
begin init c; c.up; c.show end.
