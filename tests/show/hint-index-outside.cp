"A number, a constant, a sum, and an index within another."
const size = 3; none = -1;
type row = array [1..size] of integer;
var a: row; t: array [0..1] of row; r: record all: row end;
begin
  a[4] := 1;
  a[size + 1] := 1;
  t[none][size] := 1;
  t[1][a[0]] := 1;
  r.all[(2 * size)] := 1
end.
