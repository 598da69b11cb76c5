"Values of each kind <&> paths"
type
colour = (red, green, blue);
point = record x, y: integer end;
tally = class;
  var count: integer;
  procedure entry add; begin count := count + 1 end;
begin count := 0 end;
shop = monitor(first: colour);
  var paint: colour; used: set of colour; at: point; row: array [1..2] of char;
      open: boolean; lines: array [red..blue] of queue; t: tally;
  procedure entry mix(c: colour; var seen: integer);
  begin
    t.add; paint := c; used := used or [c]; at.y := 7; row[2] := 'b'; open := true;
    seen := 5
  end;
  procedure entry wait(c: colour);
  begin delay(lines[c]) end;
  procedure entry call(c: colour);
  begin continue(lines[c]) end;
begin init t; paint := first; row[1] := 'a'; row[2] := '(:10:)' end;
table = monitor;
  var chairs: array [1..2] of tally;
begin init chairs[1], chairs[2] end;
worker = process(s: shop);
begin s.wait(green) end;
var shops: array ['a'..'b'] of shop; w: worker; seen: array [0..1] of integer; side: table;
begin
  init shops['a'](green), shops['b'](red), side, w(shops['b']);
  shops['b'].mix(blue, seen[1]);
  shops['b'].call(green); shops['b'].call(red)
end.
