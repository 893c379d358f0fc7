(* A night level by the clock: the button lights the corridor with 254 by day and 30 by night.
   There is no wall clock: the time is counted from the start, which is at noon. *)
PROGRAM time_of_day
VAR_EXTERNAL
  now : TIME;
  night : BOOL;
END_VAR
VAR
  since : TON;
END_VAR
  LDN since.Q
  ST since.IN
  CAL since(PT := T#23h59m58s)    (* a day, less the two scans in which it begins anew *)
  LD since.ET
  ADD T#12h
  MOD T#24h
  ST now
  LT T#6h
  OR( now
    GE T#22h
  )
  ST night
END_PROGRAM

PROGRAM sw
VAR_EXTERNAL
  event : UINT (0..1023);
  night : BOOL;
  lamp : USINT (0..254);
END_VAR
  LD event
  NE 2             (* only a short press *)
  RETC
  LD lamp
  EQ 0
  JMPC lit
  LD 0
  ST lamp
  RET
lit:
  LD night
  JMPC low
  LD 254
  ST lamp
  RET
low:
  LD 30
  ST lamp
END_PROGRAM

CONFIGURATION house
VAR_GLOBAL
  pressed AT %IX0.0 : BOOL;              (* the button *)
  event AT %IW0.128 : UINT (0..1023);    (* what it said last *)
  now : TIME;                            (* the time of day *)
  night : BOOL;
  lamp AT %QB0.5 : USINT (0..254);
END_VAR
TASK push (SINGLE := pressed, PRIORITY := 0);
TASK clock (INTERVAL := T#1s, PRIORITY := 1);
PROGRAM light WITH push : sw;
PROGRAM hours WITH clock : time_of_day;
END_CONFIGURATION
