"(* expect never run-error *)"
var x: integer; begin x := true end.
