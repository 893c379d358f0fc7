(* A group's level: the button switches all lamps of group 1 with one frame. *)
PROGRAM sw
VAR_EXTERNAL
  event : UINT (0..1023);
  shelf : USINT (0..254);
END_VAR
  LD event
  NE 2             (* only a short press *)
  RETC
  LD shelf
  EQ 0
  JMPC lit
  LD 0
  ST shelf
  RET
lit:
  LD 120
  ST shelf
END_PROGRAM

(* Which lamps are in the group, stored in the first scan. *)
PROGRAM join
VAR
  left, right : GEAR_PAIR;
END_VAR
  CAL left(REQ := TRUE, ADR := 1, CMD := 19)     (* ADD TO GROUP 1 *)
  CAL right(REQ := TRUE, ADR := 2, CMD := 19)
END_PROGRAM

(* So that a play shows it: each second the second lamp is asked for its level. *)
PROGRAM look
VAR
  ask : GEAR_ASK;
END_VAR
  CAL ask(REQ := FALSE)
  CAL ask(REQ := TRUE, ADR := 2, CMD := 16)
END_PROGRAM

CONFIGURATION house
VAR_GLOBAL
  pressed AT %IX0.0 : BOOL;             (* the button *)
  event AT %IW0.128 : UINT (0..1023);   (* what it said last *)
  shelf AT %QB0.65 : USINT (0..254);    (* the level of group 1: 64 and 1 *)
  level AT %IW0.2 : UINT (0..258);      (* what the second lamp answered last *)
END_VAR
TASK push (SINGLE := pressed, PRIORITY := 0);
TASK clock (INTERVAL := T#1s, PRIORITY := 1);
PROGRAM light WITH push : sw;
PROGRAM groups WITH clock : join;
PROGRAM levels WITH clock : look;
END_CONFIGURATION
