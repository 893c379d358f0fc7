(* The light of a stairwell goes out three minutes after the button was let go. *)
PROGRAM stairwell
VAR
  button : BOOL;
  light : BOOL := TRUE;
  rest : TON;
END_VAR
  LD button
  S light
  LDN button
  ST rest.IN
  CAL rest(PT := T#3m)
  LD rest.Q
  R light
END_PROGRAM
