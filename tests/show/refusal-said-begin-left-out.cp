procedure p;
  display(1);
end;
begin p end.
