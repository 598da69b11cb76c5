type
  k = class;
    var n: integer;
    "(* invariant n >= 0 *)"
    procedure entry up; begin n := n + 1 end;
  begin n := 0 end;
  m = monitor;
    var count: integer; q: queue;
    "(* invariant count >= 0 *)"
    "(* invariant
        count < 10 *)"
    procedure entry go;
    begin
      count := count + 1;
      "(* assert count > 0 *)"
      if count > 5 then begin
        "(* assert count = 6 *)"
        count := 0;
        "(* assert
            count = 0 *)"
      end;
      if count > 7 then "(* assert
         count = 8 *)" count := 1
    end;
  begin count := 0 end;
var b, never: m; c: k;
begin
  init b;
  b.go;
  if 1 > 2 then init never;
  if 1 > 2 then init c
end.
