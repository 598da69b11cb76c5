type colour = (red, green, blue);
var c: colour;
begin c := grene end.
