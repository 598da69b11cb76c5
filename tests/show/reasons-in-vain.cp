"A bell that rings while nobody waits is not heard."
type
bell = monitor;
  var rung: queue;
  procedure entry ring;
  begin continue(rung) end;
  procedure entry listen;
  begin delay(rung) end;
begin end;

ringer = process(b: bell);
begin b.ring; b.ring end;

var b: bell; r: ringer;
begin init b, r(b); b.listen end.
