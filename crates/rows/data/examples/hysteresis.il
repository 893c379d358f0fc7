(* The light at the facade is on below 200 lux and off above 400 lux. In between it stays as it is,
   so that it does not go on and off with each cloud. *)

(* TRUE below the one value and FALSE above the other; in between as it was. *)
FUNCTION hysteresis : BOOL
VAR_INPUT
  value, below, above : UINT;
  was : BOOL;
END_VAR
  LD value
  LT below
  ST hysteresis
  RETC                       (* it is below: TRUE *)
  LD value
  LE above
  AND was
  ST hysteresis
END_FUNCTION

PROGRAM facade
VAR
  lux : UINT := 300;
  lit : BOOL := TRUE;
END_VAR
  LD lux
  hysteresis 200, 400, lit
  ST lit
END_PROGRAM
