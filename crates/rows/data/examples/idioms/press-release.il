(* Release against press: a press switches the lamp, and its release does nothing. *)
PROGRAM sw
VAR_EXTERNAL
  event : UINT (0..1023);
  lamp : USINT (0..254);
END_VAR
  LD event
  NE 1             (* anything but a press *)
  RETC
  LD lamp
  EQ 0
  JMPC lit
  LD 0
  ST lamp
  RET
lit:
  LD 200
  ST lamp
END_PROGRAM

(* And a sign that is lit from the press to the release. *)
PROGRAM bell
VAR_EXTERNAL
  event : UINT (0..1023);
  sign : USINT (0..254);
END_VAR
  LD event
  EQ 1             (* a press *)
  JMPC lit
  LD event
  EQ 0             (* a release *)
  RETCN
  LD 0
  ST sign
  RET
lit:
  LD 254
  ST sign
END_PROGRAM

CONFIGURATION house
VAR_GLOBAL
  pressed AT %IX0.0 : BOOL;              (* the button *)
  event AT %IW0.128 : UINT (0..1023);    (* the information of its last event *)
  lamp AT %QB0.5 : USINT (0..254);
  sign AT %QB0.6 : USINT (0..254);
END_VAR
TASK push (SINGLE := pressed, PRIORITY := 1);
PROGRAM light WITH push : sw;
PROGRAM door WITH push : bell;
END_CONFIGURATION
