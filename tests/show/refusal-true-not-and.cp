var b: boolean; begin b := not b and 1 end.
