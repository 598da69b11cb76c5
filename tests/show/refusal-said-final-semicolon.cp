begin
  display(1)
end;
