(* A dimmer: each scan changes the level, within its limits. *)
TYPE
  Level : USINT (0..254);
END_TYPE
PROGRAM dimmer
VAR
  level : Level := 100;
  change : SINT (-16..16) := 4;
END_VAR
  LD level
  ADD change
  LIMIT 10, 254
  ST level
END_PROGRAM
