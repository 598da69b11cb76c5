type t = array [1..2] of integer; u = array [1..2] of integer;
var a: t; b: u;
begin a := b end.
