(* Daylight regulation: the lamps follow the sun in small steps, so that the desk has 500 lux. *)
PROGRAM regulate
VAR_EXTERNAL
  measured : UINT (0..1023);
  desk : USINT (0..254);
END_VAR
  LD measured
  LT 480
  JMPC brighter
  LD measured
  LE 520
  RETC             (* near enough: the level stays *)
  LD desk
  SUB 4
  MAX 0
  ST desk
  RET
brighter:
  LD desk
  ADD 4
  MIN 254
  ST desk
END_PROGRAM

CONFIGURATION house
VAR_GLOBAL
  measured AT %IW0.128 : UINT (0..1023);    (* the light at the desk, lamps and sun together *)
  desk AT %QB0.5 : USINT (0..254) := 120;
END_VAR
TASK clock (INTERVAL := T#3s, PRIORITY := 1);
PROGRAM light WITH clock : regulate;
END_CONFIGURATION
