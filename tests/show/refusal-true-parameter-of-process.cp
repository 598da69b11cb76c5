type w = process(n: integer); begin n := 1 end; begin end.
