type small = 1..9; var x: integer;
procedure p(b: boolean; var n: small); begin n := 1 end; begin p(true, x) end.
