var i: integer; function g: integer; begin g := 1 end; begin i := g[1] end.
