"A name that is longer than a line of its lane"
type
room = monitor;
  var number_of_writers_inside: integer;
  "(* invariant number_of_writers_inside <= 0 *)"
  procedure entry go_in; begin number_of_writers_inside := number_of_writers_inside + 1 end;
begin number_of_writers_inside := 0 end;
writer = process(r: room); begin r.go_in end;
var r: room; w: array [1..11] of writer;
begin
  init r, w[1](r), w[2](r), w[3](r), w[4](r), w[5](r), w[6](r), w[7](r), w[8](r), w[9](r), w[10](r), w[11](r)
end.
