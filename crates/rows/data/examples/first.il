(* A stairwell: the light is on when the two switches differ. *)
PROGRAM stairs
VAR
  lower : BOOL;
  upper : BOOL := TRUE;
  light : BOOL;
END_VAR
  LD lower
  XOR upper
  ST light
END_PROGRAM
