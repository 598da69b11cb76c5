var i: integer; procedure p; begin end; begin i := p.x end.
