(* A small office: a press of the button at the door lights the corridor until three minutes
   after the last press. Each minute the lamp is asked whether it has failed. *)
TYPE
  Level : USINT (0..254);
  Presses : UINT (0..9999);
  Answer : UINT (0..258);   (* 256 no answer, 257 a damaged one, 258 none yet *)
END_TYPE

(* Full light or none. *)
FUNCTION full : Level
VAR_INPUT lit : BOOL; END_VAR
  LD lit
  RETCN                     (* none: the level that it begins with *)
  LD 254
  ST full
END_FUNCTION

PROGRAM door
VAR_EXTERNAL
  presses : Presses;
END_VAR
  LD presses
  ADD 1
  MOD 10000
  ST presses
END_PROGRAM

PROGRAM corridor
VAR_EXTERNAL
  presses : Presses;
  lamp : Level;
END_VAR
VAR
  seen : Presses;
  rest : TON;
END_VAR
  LD presses
  EQ seen
  ST rest.IN                (* FALSE in the scan after a press: the time begins anew *)
  CAL rest(PT := T#3m)
  LD presses
  ST seen
  LDN rest.Q
  full
  ST lamp
END_PROGRAM

PROGRAM watch
VAR_EXTERNAL
  answer : Answer;
END_VAR
VAR
  period : TON;
  ask : GEAR_ASK;
  failed : BOOL;
END_VAR
  LDN period.Q
  ST period.IN
  CAL period(PT := T#1m)
  LD period.Q
  ST ask.REQ
  CAL ask(ADR := 5, CMD := 2)   (* LAMP FAILURE: the answer YES is 255 *)
  LD answer
  EQ 255
  ST failed
END_PROGRAM

CONFIGURATION office
VAR_GLOBAL
  pressed AT %IX0.0 : BOOL;    (* the button at the door *)
  presses : Presses;
  lamp AT %QB0.5 : Level;      (* the lamp of the corridor *)
  answer AT %IW0.5 : Answer;   (* what it answered last *)
END_VAR
TASK push (SINGLE := pressed, PRIORITY := 0);
TASK clock (INTERVAL := T#1s, PRIORITY := 1);
PROGRAM button WITH push : door;
PROGRAM light WITH clock : corridor;
PROGRAM lamps WITH clock : watch;
END_CONFIGURATION
