"Readers and writers, where nobody starves. This is readers-writers-starving.cp
 but for one condition: a reader waits also where a writer waits already.

 Options: --choices 8

 Look for: no outcome has 1 or 2 in it, since no reader begins while the writer
 waits. After 0 comes 9, or the end of the choices. The readers who wait
 meanwhile go on after the writer, the first of them wakes the second."
type
access = monitor;
  var writing: boolean; readers: integer; turn: array [1..2] of queue; writer: queue;
  procedure entry start_read(me: integer);
  begin
    if writing or not empty(writer) then delay(turn[me]);
    readers := readers + 1;
    if not empty(writer) then display(me);
    continue(turn[3 - me])
  end;
  procedure entry end_read;
  begin
    readers := readers - 1;
    if readers = 0 then continue(writer)
  end;
  procedure entry start_write;
  begin
    if readers > 0 then begin display(0); delay(writer) end;
    writing := true;
    display(9)
  end;
  procedure entry end_write;
  begin
    writing := false;
    if empty(turn[1]) then continue(turn[2]) else continue(turn[1])
  end;
begin writing := false; readers := 0 end;

reader = process(a: access; me: integer);
begin cycle a.start_read(me); a.end_read end end;

var a: access; r1, r2: reader;
begin
  init a, r1(a, 1), r2(a, 2);
  a.start_write; a.end_write
end.
