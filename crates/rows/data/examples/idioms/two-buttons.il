(* Two buttons for one lamp: each press of either button switches the lamp on or off. *)
PROGRAM stairs
VAR_EXTERNAL
  lower : UINT;
  upper : UINT;
  lamp : USINT (0..254);
END_VAR
  LD lower
  ADD upper
  MOD 2            (* 1 where the two together were pressed an odd number of times *)
  MUL 200
  ST lamp
END_PROGRAM

CONFIGURATION house
VAR_GLOBAL
  lower AT %IW0.192 : UINT;          (* how often the lower button was pressed *)
  upper AT %IW0.193 : UINT;          (* how often the upper one *)
  lamp AT %QB0.5 : USINT (0..254);
END_VAR
TASK clock (INTERVAL := T#100ms, PRIORITY := 1);
PROGRAM light WITH clock : stairs;
END_CONFIGURATION
