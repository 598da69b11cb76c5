"The end is never displayed; and of two statements behind a cycle the first alone is told."
type p = process(n: integer);
begin
  cycle
    display(n)
  end;
  display(-1);
  display(-2)
end;
var a: p;
begin init a(1) end.
