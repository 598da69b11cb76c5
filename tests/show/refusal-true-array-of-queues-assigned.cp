type m = monitor; var q, s: array [1..2] of queue; begin q := s end; begin end.
