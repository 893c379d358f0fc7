(* A presence detector: the light is on while somebody is there, and for five minutes after. *)
PROGRAM room
VAR_EXTERNAL
  said : UINT (0..1023);
  lamp : USINT (0..254);
END_VAR
VAR
  empty : BOOL;
  rest : TON;
END_VAR
  LD said
  DIV 2
  MOD 2            (* bit 1 of what it says: somebody is there *)
  EQ 0
  ST empty
  CAL rest(IN := empty, PT := T#5m)
  LD empty
  JMPCN lit
  LD rest.Q
  RETCN            (* nobody is there, but not for five minutes: the lamp stays as it is *)
  LD 0
  ST lamp
  RET
lit:
  LD 200
  ST lamp
END_PROGRAM

CONFIGURATION house
VAR_GLOBAL
  said AT %IW0.128 : UINT (0..1023);    (* what the detector said last *)
  lamp AT %QB0.5 : USINT (0..254);
END_VAR
TASK clock (INTERVAL := T#200ms, PRIORITY := 1);
PROGRAM light WITH clock : room;
END_CONFIGURATION
