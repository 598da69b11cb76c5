var i: integer; function f(c: char): integer; begin f := ord(c) end;
begin i := 1 + f(i * 2) end.
