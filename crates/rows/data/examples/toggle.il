(* A push button toggles the light: each press turns it over. *)
PROGRAM toggle
VAR
  button : BOOL := TRUE;
  light : BOOL;
  press : R_TRIG;
END_VAR
  CAL press(CLK := button)
  LD light
  XOR press.Q
  ST light
END_PROGRAM
