"Disk head scheduling. The head of a disk stands at cylinder 3 and moves upward;
 the disk is busy until the program releases it. Two users ask for cylinders 2
 and 5 meanwhile. When the head arrives its user displays two digits: whether it
 asked first or second, and the cylinder.

 Options: --choices 17

 Look for: 25 12. Cylinder 2 was asked for first and is nearer, but the head goes
 on in its direction as long as somebody waits there, and turns back only then.
 There is no 22 15: nobody passes who waits in the direction of the head. In 12 25
 cylinder 5 was asked for only when the head had gone to 2."
const last = 5;
type
cylinder = 1..last;
disk = monitor;
  var busy, upward: boolean; head: cylinder; asked: integer;
    wait: array [cylinder] of queue;
  procedure entry seek(c: cylinder);
    var place: integer;
  begin
    asked := asked + 1; place := asked;
    if busy then delay(wait[c]);
    busy := true; head := c;
    display(10 * place + c)
  end;
  procedure entry release;
    var c, pass: integer;
  begin
    busy := false;
    for pass := 1 to 2 do begin
      if upward then begin
        for c := head to last do
          if not empty(wait[c]) then continue(wait[c])
      end
      else
        for c := head downto 1 do
          if not empty(wait[c]) then continue(wait[c]);
      upward := not upward
    end
  end;
begin busy := true; upward := true; head := 3; asked := 0 end;

user = process(d: disk; c: cylinder);
begin d.seek(c); d.release end;

var d: disk; u: array [1..2] of user;
begin init d, u[1](d, 2), u[2](d, 5); d.release end.
