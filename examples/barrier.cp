"A barrier. Two processes, of which the program is one, work in two rounds. Each
 displays the number of its round and then waits for the other one.

 Options: --choices 12

 Look for: 'finished output 1 1 2 2' is the only outcome. Nobody begins round 2
 before both have begun round 1, and nobody is left waiting at the barrier. Take
 the calls of meet away, and 1 2 1 2 is possible too."
type
barrier = monitor;
  var somebody: boolean; place: queue;
  procedure entry meet;
  begin
    somebody := not somebody;
    if somebody then delay(place) else continue(place)
  end;
begin somebody := false end;

worker = process(b: barrier);
  var round: integer;
begin
  for round := 1 to 2 do begin display(round); b.meet end
end;

var b: barrier; w: worker; round: integer;
begin
  init b, w(b);
  for round := 1 to 2 do begin display(round); b.meet end
end.
