(* A button for a cyclic task: an event task counts the short presses, and the cyclic one makes of
   each a step of the level. No press is lost, however long its interval is. *)
PROGRAM count
VAR_EXTERNAL
  event : UINT (0..1023);
  presses : UINT (0..9999);
END_VAR
  LD event
  NE 2             (* only a short press *)
  RETC
  LD presses
  ADD 1
  MOD 10000
  ST presses
END_PROGRAM

PROGRAM steps
VAR_EXTERNAL
  presses : UINT (0..9999);
  lamp : USINT (0..254);
END_VAR
VAR
  seen : UINT (0..9999);
END_VAR
  LD presses
  SUB seen
  ADD 10000
  MOD 10000        (* so often it was pressed since the last scan *)
  MUL 50
  ADD lamp
  MOD 300          (* after 250 it begins again with 0 *)
  MIN 250          (* never less: all are steps of 50, but that is not known before *)
  ST lamp
  LD presses
  ST seen
END_PROGRAM

CONFIGURATION house
VAR_GLOBAL
  pressed AT %IX0.0 : BOOL;             (* the button *)
  event AT %IW0.128 : UINT (0..1023);    (* what it said last *)
  presses : UINT (0..9999);
  lamp AT %QB0.5 : USINT (0..254);
END_VAR
TASK push (SINGLE := pressed, PRIORITY := 0);
TASK clock (INTERVAL := T#1s, PRIORITY := 1);
PROGRAM button WITH push : count;
PROGRAM light WITH clock : steps;
END_CONFIGURATION
