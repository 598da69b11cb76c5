"Readers and writers who never end. Readers go in while others read.

 Options: --ends

 Look for: 'ends 0', in all of the 231 states. That the writer may wait while
 readers come and go for ever is no end: compare readers-writers-endless.cp."
const n = 3; readers = 2;
type
who = 1..n;
access = monitor;
  var reading: integer; writing: boolean; wait: array [who] of queue;
  procedure entry start_read(me: who);
    var i: integer;
  begin
    if writing then delay(wait[me]);
    reading := reading + 1;
    for i := 1 to readers do if not empty(wait[i]) then continue(wait[i])
  end;
  procedure entry end_read;
    var i: integer;
  begin
    reading := reading - 1;
    if reading = 0 then for i := readers + 1 to n do if not empty(wait[i]) then continue(wait[i])
  end;
  procedure entry start_write(me: who);
  begin
    if writing or (reading > 0) then delay(wait[me]);
    writing := true
  end;
  procedure entry end_write;
    var i: integer;
  begin
    writing := false;
    for i := 1 to n do if not empty(wait[i]) then continue(wait[i])
  end;
begin reading := 0; writing := false end;

reader = process(a: access; me: who);
begin cycle a.start_read(me); a.end_read end end;

writer = process(a: access; me: who);
begin cycle a.start_write(me); a.end_write end end;

var a: access; r1, r2: reader; w1: writer;
begin init a, r1(a, 1), r2(a, 2), w1(a, 3) end.
