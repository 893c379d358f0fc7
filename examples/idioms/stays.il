(* A lamp that stays as it is at a start: it is sent no level before the first press. The lamp is
   asked for its level, so that the first press does what people expect. *)
PROGRAM sw
VAR_EXTERNAL
  event : UINT (0..1023);
  found : UINT (0..258);
  lamp : USINT (0..255);
END_VAR
  LD event
  NE 2             (* only a short press *)
  RETC
  LD lamp
  EQ 0
  OR( lamp
    EQ 255           (* it was not sent a level .. *)
    AND( found
      EQ 0           (* .. and is off *)
    )
  )
  JMPC lit
  LD 0
  ST lamp
  RET
lit:
  LD 200
  ST lamp
END_PROGRAM

(* Each second, until it answers: what level has the lamp? *)
PROGRAM learn
VAR_EXTERNAL
  found : UINT (0..258);
END_VAR
VAR
  ask : GEAR_ASK;
END_VAR
  CAL ask(REQ := FALSE)
  LD found
  GE 256
  ST ask.REQ
  CAL ask(ADR := 5, CMD := 16)    (* QUERY ACTUAL LEVEL *)
END_PROGRAM

CONFIGURATION house
VAR_GLOBAL
  pressed AT %IX0.0 : BOOL;                  (* the button *)
  event AT %IW0.128 : UINT (0..1023);        (* what it said last *)
  found AT %IW0.5 : UINT (0..258);           (* what the lamp answered *)
  lamp AT %QB0.5 : USINT (0..255) := 255;    (* 255: it is not sent a level *)
END_VAR
TASK push (SINGLE := pressed, PRIORITY := 0);
TASK clock (INTERVAL := T#1s, PRIORITY := 1);
PROGRAM light WITH push : sw;
PROGRAM levels WITH clock : learn;
END_CONFIGURATION
