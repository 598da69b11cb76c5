"Readers and writers, where readers starve the writer. Two readers read again and
 again; the program is a writer that wants to write once. It displays 0 when it
 has to wait and 9 when it writes. A reader that begins while the writer waits
 displays its number, 1 or 2.

 Options: --choices 8

 Look for: outcomes as '0 2 1' and '0 1 2'. After the writer began to wait (0),
 readers go on beginning: as long as their turns overlap, the writer never gets
 its turn. With more choices there are more numbers between 0 and 9; nothing
 bounds them. In readers-writers-fair.cp there are none."
type
access = monitor;
  var writing: boolean; readers: integer; turn: array [1..2] of queue; writer: queue;
  procedure entry start_read(me: integer);
  begin
    if writing then delay(turn[me]);
    readers := readers + 1;
    if not empty(writer) then display(me);
    continue(turn[3 - me])
  end;
  procedure entry end_read;
  begin
    readers := readers - 1;
    if readers = 0 then continue(writer)
  end;
  procedure entry start_write;
  begin
    if readers > 0 then begin display(0); delay(writer) end;
    writing := true;
    display(9)
  end;
  procedure entry end_write;
  begin
    writing := false;
    if empty(turn[1]) then continue(turn[2]) else continue(turn[1])
  end;
begin writing := false; readers := 0 end;

reader = process(a: access; me: integer);
begin cycle a.start_read(me); a.end_read end end;

var a: access; r1, r2: reader;
begin
  init a, r1(a, 1), r2(a, 2);
  a.start_write; a.end_write
end.
