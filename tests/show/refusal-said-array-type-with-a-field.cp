type t = array [1..3] of integer;
var c: integer;
begin c := t.length end.
