var x: integer; done: boolean;
begin
  repeat
    x := x + 1
    done
end.
