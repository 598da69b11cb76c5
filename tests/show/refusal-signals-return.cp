type m = monitor;
var q, r: queue; n: integer; full: boolean;
procedure wait_turn; begin if full then delay(q) end;
procedure entry a; begin if n = 0 then delay(q); n := 1; continue(r); display(n) end;
procedure entry b; begin while n = 0 do delay(q); continue(r) end;
procedure entry c; begin if n = 0 then while full do n := 1 else delay(q) end;
procedure entry d; begin while n = 0 do begin n := 2; if full then delay(q) end end;
procedure entry e; begin repeat if full then begin n := 1; delay(q) end until n > 0 end;
procedure entry f; var i: integer; begin for i := 1 to 3 do if full then delay(q) else n := 2 end;
procedure entry g; begin if n = 0 then begin n := 1; if full then n := 2 else begin n := 3; delay(q) end end; continue(r); n := 3; wait_turn end;
procedure entry h; begin if n = 0 then n := 1; while full do n := 2; delay(q) end;
procedure entry i; begin if n = 0 then repeat n := 1 until n > 0; case n of 1: if full then n := 1 else delay(q); 2: delay(r) end end;
procedure entry j; begin if n = 0 then n := 2; begin n := 1; delay(q) end; if n = 1 then continue(r); delay(q) end;
begin n := 0; full := false end;
var a: m;
begin init a end.
