"Rounds that one process goes alone, and values that are long"
type m = monitor; var log: array [1..12] of integer; k: integer;
 procedure entry add(x: integer); begin k := k mod 12 + 1; log[k] := x end;
 procedure entry fill; var j: integer; begin for j := 1 to 12 do log[j] := 1000 + j end;
 function entry get(i: integer): integer; begin get := log[i] end;
 procedure entry both(var a: integer; var b: integer); begin a := log[1]; b := log[2] end;
begin for k := 1 to 12 do log[k] := 0; k := 0 end;
p = process(c: m); var a, b: integer;
begin cycle
  c.add(7)
end end;
var c: m; a: p; x, y: integer;
begin init c, a(c); c.fill; x := c.get(3); c.both(x, y); display(x = y) end.
