(* The gear with short address 5 keeps the level 100 as its scene 2. *)
PROGRAM scene
VAR
  learn : BOOL := TRUE;
  keep : GEAR_SET;
END_VAR
  LD learn
  ST keep.REQ
  CAL keep(ADR := 5, CMD := 9, DATA := 100)
END_PROGRAM
