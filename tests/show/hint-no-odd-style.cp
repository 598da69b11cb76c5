"begin end if then delay(q) continue(q) := while"
CONST last = 3; debug = false;
TYPE
colour = (red, green, blue);
queues = array [0..1] of queue;

turns = monitor(
  first : integer
) ;
  var turn, n: integer; wait: queues;
  function other: integer;
  begin other := 1 - turn end;
  function sum: integer;
  begin for sum := 1 to last do n := n + 1 end;
  function entry is_first: boolean;
  begin if turn = first then is_first := true else is_first := false end;
  procedure block(i: integer);
  begin delay(wait[i mod 2]) end;
  procedure entry await(me: integer);
  begin
    repeat if turn <> me then block(me) until turn = me;
    if debug then else ;
    if me = 5 then begin end else ; n := sum
  end;
  procedure entry pass;
  var i: integer;
  begin
    turn := other;
    for i := 0 to 1 do
      if not empty(wait[i]) then continue(wait[turn])
  end;
begin ;;; turn := first; n := 0 ;; end;

player = process(t: turns; me: integer);
  var integer: char; seen: array [colour] of boolean;
begin
  integer := '(:34:)'; "then this semicolon; is none"
  seen[green] := t.is_first;
  case integer of 'a', 'b': ; '(:34:)': seen[red] := false; end;
  t.await(me); display(me); t.pass
end;

var t: array [1..2] of turns; p: array [0..1] of player; i: integer;
begin
  for i := 1 to 2 do init t[i](0);
  if not debug then
    for i := 0 to 1 do init p[i](t[last - 1], i)
end.
