"Two readers and two writers, of whom the program is one. A writer waits until
 nobody reads or writes, and a reader also while a writer waits. Who writes while
 others read displays 90 and their number, who writes while another writes displays 80.

 Options: --merge --choices 24

 Look for: one outcome without output, in all of 84,832,914 schedules."
type
access = monitor;
  var readers: integer; writing: boolean; read, write: array [1..2] of queue;
  procedure entry start_read(me: integer);
  begin
    if writing or not (empty(write[1]) and empty(write[2])) then delay(read[me]);
    readers := readers + 1;
    continue(read[3 - me])
  end;
  procedure entry end_read;
  begin
    readers := readers - 1;
    if readers = 0 then
      if not empty(write[1]) then continue(write[1]) else continue(write[2])
  end;
  procedure entry start_write(me: integer);
  begin
    if writing or (readers > 0) then delay(write[me]);
    if readers > 0 then display(90 + readers);
    if writing then display(80);
    writing := true
  end;
  procedure entry end_write;
  begin
    writing := false;
    if not empty(read[1]) then continue(read[1]);
    if not empty(read[2]) then continue(read[2]);
    if not empty(write[1]) then continue(write[1]) else continue(write[2])
  end;
begin readers := 0; writing := false end;

reader = process(a: access; me: integer);
begin a.start_read(me); a.end_read end;

writer = process(a: access; me: integer);
begin a.start_write(me); a.end_write end;

var a: access; r: array [1..2] of reader; w: writer;
begin
  init a, r[1](a, 1), r[2](a, 2), w(a, 1);
  a.start_write(2); a.end_write
end.
