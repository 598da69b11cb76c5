type t = 1..2; var a: t; begin a := t end.
