(* Off after a time: a press lights the corridor until three minutes after the last press. *)
PROGRAM corridor
VAR_EXTERNAL
  presses : UINT;
  lamp : USINT (0..254);
END_VAR
VAR
  seen : UINT;
  lit : BOOL;
  rest : TON;
END_VAR
  LD presses
  NE seen
  S lit            (* a press lights the lamp .. *)
  STN rest.IN      (* .. and the time begins anew *)
  CAL rest(PT := T#3m)
  LD presses
  ST seen
  LD rest.Q
  R lit
  LD lit
  JMPC bright
  LD 0
  ST lamp
  RET
bright:
  LD 254
  ST lamp
END_PROGRAM

CONFIGURATION house
VAR_GLOBAL
  presses AT %IW0.192 : UINT;        (* how often the button was pressed *)
  lamp AT %QB0.5 : USINT (0..254);
END_VAR
TASK clock (INTERVAL := T#1s, PRIORITY := 1);
PROGRAM light WITH clock : corridor;
END_CONFIGURATION
