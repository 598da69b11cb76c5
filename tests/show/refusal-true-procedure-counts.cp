procedure p; begin end; begin for p := 1 to 2 do end.
