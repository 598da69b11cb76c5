"An initial statement has no variables of its own: so i is one of the type, and each routine has one of its own."
type table = monitor;
  var i: integer; free: array [1..3] of boolean;
  procedure entry show;
  var i: integer;
  begin for i := 1 to 3 do display(free[i]) end;
  procedure entry swap;
  var i: integer;
  begin i := 2; free[i] := not free[i] end;
  procedure entry greet;
  var i: integer;
  begin for i := 1 to 3 do display(7) end;
begin for i := 1 to 3 do free[i] := true end;
var t: table;
begin init t; t.swap; t.show; t.greet end.
