"A server that stamps a hundred and ten letters, and then never comes out of its
 call, but waits there and is woken again and again."
type
m = monitor;
  var q: queue;
  procedure entry serve; begin cycle delay(q); display(1) end end;
  procedure entry ask; begin continue(q) end;
begin end;

server = process(a: m);
var i: integer;
begin
  for i := 1 to 110 do display(0);
  a.serve
end;

client = process(a: m);
begin cycle a.ask end end;

var a: m; s: server; c: client;
begin init a, s(a), c(a) end.
