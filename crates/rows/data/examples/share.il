(* Shares the power that there is among the luminaires that are on.
   Where none is on there is nothing to share, and the level stays. *)
PROGRAM share
VAR
  lit : USINT (0..64) := 3;        (* the luminaires that are on *)
  power : UINT (0..16256) := 600;  (* of a full luminaire: 254 *)
  level : USINT (0..254) := 254;
END_VAR
  LD lit
  EQ 0
  RETC
  LD power
  DIV lit
  MIN 254
  ST level
END_PROGRAM
