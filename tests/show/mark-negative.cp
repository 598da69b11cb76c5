"(* expect never run-error
   and only finished output -7 *)"
begin display(-7) end.
