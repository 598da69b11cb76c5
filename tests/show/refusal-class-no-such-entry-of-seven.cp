type lift = monitor;
  var floor: integer;
  procedure entry up; begin floor := floor + 1 end;
  procedure entry down; begin floor := floor - 1 end;
  procedure entry call(n: integer); begin floor := n end;
  procedure entry open; begin end;
  procedure entry close; begin end;
  procedure entry ring; begin end;
  function entry place: integer; begin place := floor end;
begin floor := 0 end;
var l: lift;
begin init l; l.press(3) end.
