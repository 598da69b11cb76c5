"The sleeping barber. The program is the barber, who cuts the hair of two guests
 and displays their numbers. While nobody is there he sleeps. The shop has one
 chair to wait in; a guest who finds it taken displays its number with a minus and
 leaves.

 Options: --choices 16

 Look for: 'finished output 1 2', where the second guest came after the barber had
 called the first; and 'all-waiting output -2 1': guest 2 left, so the barber
 sleeps and nobody will come to wake him. Not every all-waiting is a mistake of
 the program: this barber waits for a guest that there isn't."
type
shop = monitor;
  var taken: boolean; guest: integer; bed: queue;
  procedure entry visit(me: integer);
  begin
    if taken then display(-me)
    else begin
      taken := true; guest := me;
      continue(bed)
    end
  end;
  function entry next: integer;
  begin
    if not taken then delay(bed);
    taken := false;
    next := guest
  end;
begin taken := false end;

customer = process(s: shop; me: integer);
begin s.visit(me) end;

var s: shop; a, b: customer;
begin
  init s, a(s, 1), b(s, 2);
  display(s.next); display(s.next)
end.
