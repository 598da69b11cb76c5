type w = process(n: integer); begin end; var p: w; begin init p end.
