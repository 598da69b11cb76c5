var b: boolean; begin b := not b + 1 end.
