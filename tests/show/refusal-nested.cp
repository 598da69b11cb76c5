type slot = monitor; var q: queue; procedure entry get; begin delay(q) end; begin end;
guard = monitor(s: slot); procedure entry take; begin s.get end; begin end;
var a: slot; b: guard; begin init a, b(a); b.take end.
