var x: integer;
begin
  switch (x) begin
    1: display(1);
    2: display(2)
  end
end.
