"The first and the last, and an index that is no constant."
const size = 3; low = -size;
type day = (monday, tuesday, wednesday);
var a: array [low..size] of integer; b: array [day] of integer; c: array [boolean] of integer; i: integer;
begin
  a[-3] := 1; a[low] := 1; a[+size] := 1; a[size - 6] := 1; a[-(size)] := 1;
  b[monday] := 1; b[wednesday] := 1;
  c[false] := 1; c[true] := 1;
  i := 2;
  a[i + 2] := 1;
  a[abs(-9)] := 1
end.
