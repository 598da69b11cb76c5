"If or while. A buffer of one place, in which 0 is nothing: the program sends two
 numbers, and each of two processes receives one and displays it. Whoever has to
 wait looks once, with an if, before it waits.

 Options: --merge --choices 19, and with --signals continue, and with --signals wait

 Look for: 1 2 and 2 1, under return and under wait. Under continue there are 0 1
 and 1 0 as well: who was woken finds the place empty, since the other one came to
 the gate before it and took the number. With while in place of each if there are
 1 2 and 2 1 alone under all three."
type
receiver_number = 1..2;
buffer = monitor;
  var full: boolean; item: integer; sender: queue; receiver: array [receiver_number] of queue;
  procedure entry send(x: integer);
  begin
    if full then delay(sender);
    item := x; full := true;
    if empty(receiver[1]) then continue(receiver[2]) else continue(receiver[1])
  end;
  procedure entry receive(me: receiver_number; var x: integer);
  begin
    if not full then delay(receiver[me]);
    x := item; item := 0; full := false;
    continue(sender)
  end;
begin full := false end;

consumer = process(b: buffer; me: receiver_number);
  var x: integer;
begin b.receive(me, x); display(x) end;

var b: buffer; c, d: consumer;
begin
  init b, c(b, 1), d(b, 2);
  b.send(1); b.send(2)
end.
