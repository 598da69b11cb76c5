var x: boolean; begin x := not -1 end.
