type c = (red, green); begin red(1) end.
