type m = monitor;
procedure entry go;
begin
end;
begin
end;
idle = process;
begin
end;
caller = process(c: m);
begin
  c.go;
  cycle
    c.go
  end
end;
var c: m; i: idle; a: caller;
begin
  init c, i, a(c)
end.
