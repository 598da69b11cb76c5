var c: char;
begin
  c := 'a';
  case c of
    'a': display(1);
    "b": display(2)
  end
end.
