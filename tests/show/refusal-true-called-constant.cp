begin true(1) end.
