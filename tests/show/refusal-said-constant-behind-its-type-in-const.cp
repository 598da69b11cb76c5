type color = (red, green);
const c = color.red;
begin end.
