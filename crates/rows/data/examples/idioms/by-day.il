(* By day and by night: the button lights the corridor with 254 by day and 30 by night, and the lamp
   at the door is lit by night. The clock says when it is day. *)
PROGRAM sw
VAR_EXTERNAL
  event : UINT (0..1023);
  daylight : UINT (0..1023);
  lamp : USINT (0..254);
END_VAR
  LD event
  NE 2             (* only a short press *)
  RETC
  LD lamp
  EQ 0
  JMPC lit
  LD 0
  ST lamp
  RET
lit:
  LD daylight
  EQ 0
  JMPC low
  LD 254
  ST lamp
  RET
low:
  LD 30
  ST lamp
END_PROGRAM

PROGRAM dusk
VAR_EXTERNAL
  daylight : UINT (0..1023);
  door : USINT (0..255);
END_VAR
  LD daylight
  EQ 0
  JMPC night
  LD 0
  ST door
  RET
night:
  LD 120
  ST door
END_PROGRAM

CONFIGURATION house
VAR_GLOBAL
  pressed AT %IX0.0 : BOOL;                  (* the button *)
  event AT %IW0.128 : UINT (0..1023);        (* what it said last *)
  turned AT %IX1.0 : BOOL;                   (* the clock: day or night begins *)
  daylight AT %IW1.128 : UINT (0..1023);     (* 1 by day, 0 by night *)
  lamp AT %QB0.5 : USINT (0..254);
  door AT %QB0.6 : USINT (0..255) := 255;    (* nothing is sent before the clock has spoken *)
END_VAR
TASK push (SINGLE := pressed, PRIORITY := 0);
TASK turn (SINGLE := turned, PRIORITY := 1);
PROGRAM light WITH push : sw;
PROGRAM outside WITH turn : dusk;
END_CONFIGURATION
