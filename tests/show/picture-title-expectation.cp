"(* expect only finished *)"
begin display(1) end.
