"Which element is continued is known where its index is a number or a constant, maybe with a minus, or where there is one alone. Any other index is computed."
const second = 2;
type room = monitor;
  var chair: array [1..3] of queue; low: array [-1..1] of queue; lone: array [2..2] of queue;
  procedure entry sit(i: integer); begin delay(chair[i]) end;
  procedure entry sink(i: integer); begin delay(low[i]) end;
  procedure entry rest(i: integer); begin delay(lone[i]) end;
  procedure entry number; begin continue(chair[2]) end;
  procedure entry constant; begin continue(chair[second]) end;
  procedure entry sum; begin continue(chair[1 + 1]) end;
  procedure entry any(i: integer); begin continue(chair[i]) end;
  procedure entry below; begin continue(low[-1]) end;
  procedure entry wake(i: integer); begin continue(lone[i]) end;
begin end;
sitter = process(r: room; i: integer); begin r.sit(i) end;
sinker = process(r: room); begin r.sink(1) end;
rester = process(r: room); begin r.rest(2) end;
var r: room; a, b: sitter; c: sinker; d: rester;
begin init r, a(r, 2), b(r, 3), c(r), d(r); r.sit(1); r.number; r.constant; r.below; r.wake(2) end.
