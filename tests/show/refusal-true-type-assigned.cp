type t = 1..9; var a: t; begin t := a end.
