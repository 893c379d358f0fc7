(* A corridor: full light while somebody is there, a little for ten minutes after, and then none. *)
PROGRAM corridor
VAR_EXTERNAL
  said : UINT (0..1023);
  lamp : USINT (0..254);
END_VAR
VAR
  empty : BOOL;
  rest : TON;
END_VAR
  LD said
  DIV 2
  MOD 2            (* bit 1 of what the detector says: somebody is there *)
  EQ 0
  ST empty
  CAL rest(IN := empty, PT := T#10m)
  LD empty
  JMPCN full
  LD rest.Q
  JMPC none
  LD lamp
  MIN 40           (* a lamp that is on goes down to 40; one that is off stays off *)
  ST lamp
  RET
full:
  LD 254
  ST lamp
  RET
none:
  LD 0
  ST lamp
END_PROGRAM

CONFIGURATION house
VAR_GLOBAL
  said AT %IW0.128 : UINT (0..1023);    (* what the detector said last *)
  lamp AT %QB0.5 : USINT (0..254);
END_VAR
TASK clock (INTERVAL := T#200ms, PRIORITY := 1);
PROGRAM light WITH clock : corridor;
END_CONFIGURATION
