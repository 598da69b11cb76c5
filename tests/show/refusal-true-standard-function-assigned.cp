begin abs := 1 end.
