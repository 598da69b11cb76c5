type
  m = monitor;
    var n: integer;
    procedure entry take(k: integer; var left: integer);
      var old: integer;
    begin
      old := n;
      n := n + k;
      left := left - k;
      "(* assert (left >= 0) or (n = old + k + 1) or (left = n) *)"
    end;
  begin n := 0 end;
var b: m; all: array [1..2] of integer; i: integer;
begin
  init b;
  i := 2;
  all[i] := 2;
  b.take(3, all[i])
end.
