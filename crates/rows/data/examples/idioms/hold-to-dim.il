(* Hold to dim: while the button is held the lamp becomes brighter, at the next hold darker. *)
PROGRAM dim
VAR_EXTERNAL
  event : UINT (0..1023);
  lamp : USINT (0..254);
END_VAR
VAR
  darker : BOOL;
END_VAR
  LD event
  EQ 11            (* the button is still held *)
  JMPC change
  LD event
  EQ 12            (* it was let go: the next hold goes the other way *)
  RETCN
  LDN darker
  ST darker
  RET
change:
  LD darker
  JMPC down
  LD lamp
  ADD 20
  MIN 254
  ST lamp
  RET
down:
  LD lamp
  SUB 20
  MAX 1
  ST lamp
END_PROGRAM

CONFIGURATION house
VAR_GLOBAL
  pressed AT %IX0.0 : BOOL;              (* the button *)
  event AT %IW0.128 : UINT (0..1023);    (* the information of its last event *)
  lamp AT %QB0.5 : USINT (0..254);
END_VAR
TASK push (SINGLE := pressed, PRIORITY := 1);
PROGRAM light WITH push : dim;
END_CONFIGURATION
