(* A level sent again after a broadcast: the button at the door sends all lamps off, and at its next
   press each has the level again that it had. *)
PROGRAM sw
VAR_EXTERNAL
  at_desk : UINT (0..1023);
  desk : USINT (0..254);
END_VAR
  LD at_desk
  NE 2             (* only a short press *)
  RETC
  LD desk
  EQ 0
  JMPC lit
  LD 0
  ST desk
  RET
lit:
  LD 180
  ST desk
END_PROGRAM

PROGRAM leave
VAR_EXTERNAL
  at_door : UINT (0..1023);
  desk : USINT (0..254);
END_VAR
VAR
  away : BOOL;
  off : GEAR_DO;
  again : GEAR_LEVEL;
END_VAR
  LD at_door
  NE 2
  RETC
  LDN away
  ST away
  ST off.REQ       (* all lamps go off where somebody leaves .. *)
  STN again.REQ    (* .. and the desk has its level again where somebody comes back *)
  CAL off(ADR := 80, CMD := 0)
  CAL again(ADR := 5, LEVEL := desk)
END_PROGRAM

CONFIGURATION house
VAR_GLOBAL
  pressed AT %IX0.0 : BOOL;             (* the button at the desk *)
  at_desk AT %IW0.128 : UINT (0..1023);
  door AT %IX0.1 : BOOL;                (* the button at the door *)
  at_door AT %IW0.129 : UINT (0..1023);
  desk AT %QB0.5 : USINT (0..254);
END_VAR
TASK push (SINGLE := pressed, PRIORITY := 0);
TASK leaving (SINGLE := door, PRIORITY := 1);
PROGRAM light WITH push : sw;
PROGRAM all WITH leaving : leave;
END_CONFIGURATION
