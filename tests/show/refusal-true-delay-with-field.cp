begin delay.x(1) end.
