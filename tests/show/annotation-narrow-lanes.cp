"An invariant that is longer than two lines of its lane"
type
room = monitor;
  var readers, writers: integer;
  "(* invariant (0 <= readers) and (0 <= writers) and
                (writers <= 1) and (readers + writers <= 3) and
                ((readers = 0) or (writers = 0)) *)"
  procedure entry read; begin readers := readers + 1 end;
  procedure entry write; begin writers := writers + 1 end;
begin readers := 1 end;
writer = process(r: room); begin r.write end;
reader = process(r: room); begin r.read end;
var r: room; w: writer; a: reader;
begin init r, w(r), a(r); display(1) end.
