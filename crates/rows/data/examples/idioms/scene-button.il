(* A scene from a button: each press sends all lamps of the bus to scene 2. *)
PROGRAM evening
VAR_EXTERNAL
  event : UINT (0..1023);
END_VAR
VAR
  go : GEAR_DO;
END_VAR
  LD event
  NE 2             (* only a short press *)
  RETC
  CAL go(REQ := FALSE)
  CAL go(REQ := TRUE, ADR := 80, CMD := 12)    (* all control gear: GO TO SCENE 2 *)
END_PROGRAM

(* What scene 2 is, stored in the first scan: 100 for one lamp, 40 for the other. *)
PROGRAM learn
VAR
  table, wall : GEAR_SET;
END_VAR
  CAL table(REQ := TRUE, ADR := 1, CMD := 9, DATA := 100)
  CAL wall(REQ := TRUE, ADR := 2, CMD := 9, DATA := 40)
END_PROGRAM

(* So that a play shows it: each second the first lamp is asked for its level. *)
PROGRAM look
VAR
  ask : GEAR_ASK;
END_VAR
  CAL ask(REQ := FALSE)
  CAL ask(REQ := TRUE, ADR := 1, CMD := 16)
END_PROGRAM

CONFIGURATION house
VAR_GLOBAL
  pressed AT %IX0.0 : BOOL;             (* the button *)
  event AT %IW0.128 : UINT (0..1023);   (* what it said last *)
  level AT %IW0.1 : UINT (0..258);      (* what the first lamp answered last *)
END_VAR
TASK push (SINGLE := pressed, PRIORITY := 0);
TASK clock (INTERVAL := T#1s, PRIORITY := 1);
PROGRAM button WITH push : evening;
PROGRAM scenes WITH clock : learn;
PROGRAM levels WITH clock : look;
END_CONFIGURATION
