type w = process; begin display(1, 2) end; var display: integer; p: w; begin init p end.
