def hello(n: integer):
  display(n);
begin hello(1) end.
