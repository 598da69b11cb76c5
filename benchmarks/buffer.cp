type
  buffer = monitor;
    var slot: array [0..1] of integer; head, count: integer; nonempty, nonfull: queue;
    procedure entry put(x: integer);
    begin
      if count = 2 then delay(nonfull);
      slot[(head + count) mod 2] := x; count := count + 1;
      continue(nonempty)
    end;
    procedure entry get(var x: integer);
    begin
      if count = 0 then delay(nonempty);
      x := slot[head]; head := (head + 1) mod 2; count := count - 1;
      continue(nonfull)
    end;
  begin head := 0; count := 0 end;
  producer = process(b: buffer);
    var i: integer;
  begin for i := 1 to 3 do b.put(i) end;
  consumer = process(b: buffer);
    var i, x: integer;
  begin for i := 1 to 3 do begin b.get(x); display(x) end end;
var b: buffer; p: producer; c: consumer;
begin init b, p(b), c(b) end.
