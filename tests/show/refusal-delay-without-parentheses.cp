type m = monitor;
  var q: queue;
  procedure entry e;
  begin
    delay q
  end;
begin
end;
var a: m;
begin
  init a
end.
