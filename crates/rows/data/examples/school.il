(* A school: twelve rooms on three floors, each floor with a bus of its own. A room has its lamps at one
   short address and a push button at its door. Each corridor has a presence detector. A light sensor looks
   at the yard. *)
TYPE
  Level : USINT (0..254);
END_TYPE

(* What a short press (information 2) makes of the light of a room; other events leave it. *)
FUNCTION after_event : Level
VAR_INPUT
  light : Level;
  event : UINT (0..1023);
END_VAR
  LD light
  ST after_event
  LD event
  EQ 2
  RETCN
  LD light
  EQ 0
  JMPC dark
  LD 0
  ST after_event
  RET
dark:
  LD 220
  ST after_event
END_FUNCTION

PROGRAM door_01
VAR_EXTERNAL
  room_01 : Level;
  event_01 : UINT (0..1023);
END_VAR
  LD room_01
  after_event event_01
  ST room_01
END_PROGRAM

PROGRAM door_02
VAR_EXTERNAL
  room_02 : Level;
  event_02 : UINT (0..1023);
END_VAR
  LD room_02
  after_event event_02
  ST room_02
END_PROGRAM

PROGRAM door_03
VAR_EXTERNAL
  room_03 : Level;
  event_03 : UINT (0..1023);
END_VAR
  LD room_03
  after_event event_03
  ST room_03
END_PROGRAM

PROGRAM door_04
VAR_EXTERNAL
  room_04 : Level;
  event_04 : UINT (0..1023);
END_VAR
  LD room_04
  after_event event_04
  ST room_04
END_PROGRAM

PROGRAM door_11
VAR_EXTERNAL
  room_11 : Level;
  event_11 : UINT (0..1023);
END_VAR
  LD room_11
  after_event event_11
  ST room_11
END_PROGRAM

PROGRAM door_12
VAR_EXTERNAL
  room_12 : Level;
  event_12 : UINT (0..1023);
END_VAR
  LD room_12
  after_event event_12
  ST room_12
END_PROGRAM

PROGRAM door_13
VAR_EXTERNAL
  room_13 : Level;
  event_13 : UINT (0..1023);
END_VAR
  LD room_13
  after_event event_13
  ST room_13
END_PROGRAM

PROGRAM door_14
VAR_EXTERNAL
  room_14 : Level;
  event_14 : UINT (0..1023);
END_VAR
  LD room_14
  after_event event_14
  ST room_14
END_PROGRAM

PROGRAM door_21
VAR_EXTERNAL
  room_21 : Level;
  event_21 : UINT (0..1023);
END_VAR
  LD room_21
  after_event event_21
  ST room_21
END_PROGRAM

PROGRAM door_22
VAR_EXTERNAL
  room_22 : Level;
  event_22 : UINT (0..1023);
END_VAR
  LD room_22
  after_event event_22
  ST room_22
END_PROGRAM

PROGRAM door_23
VAR_EXTERNAL
  room_23 : Level;
  event_23 : UINT (0..1023);
END_VAR
  LD room_23
  after_event event_23
  ST room_23
END_PROGRAM

PROGRAM door_24
VAR_EXTERNAL
  room_24 : Level;
  event_24 : UINT (0..1023);
END_VAR
  LD room_24
  after_event event_24
  ST room_24
END_PROGRAM

(* The light of a corridor: on while somebody was there in the last ten minutes. *)
PROGRAM walk_0
VAR_EXTERNAL
  corridor_0 : Level;
  seen_0 : UINT;
END_VAR
VAR
  before : UINT;
  quiet : TON;
END_VAR
  LD seen_0
  EQ before
  ST quiet.IN           (* FALSE where somebody came: the time begins anew *)
  CAL quiet(PT := T#10m)
  LD seen_0
  ST before
  LD seen_0
  EQ 0
  OR quiet.Q
  JMPC dark
  LD 180
  ST corridor_0
  RET
dark:
  LD 0
  ST corridor_0
END_PROGRAM

PROGRAM walk_1
VAR_EXTERNAL
  corridor_1 : Level;
  seen_1 : UINT;
END_VAR
VAR
  before : UINT;
  quiet : TON;
END_VAR
  LD seen_1
  EQ before
  ST quiet.IN           (* FALSE where somebody came: the time begins anew *)
  CAL quiet(PT := T#10m)
  LD seen_1
  ST before
  LD seen_1
  EQ 0
  OR quiet.Q
  JMPC dark
  LD 180
  ST corridor_1
  RET
dark:
  LD 0
  ST corridor_1
END_PROGRAM

PROGRAM walk_2
VAR_EXTERNAL
  corridor_2 : Level;
  seen_2 : UINT;
END_VAR
VAR
  before : UINT;
  quiet : TON;
END_VAR
  LD seen_2
  EQ before
  ST quiet.IN           (* FALSE where somebody came: the time begins anew *)
  CAL quiet(PT := T#10m)
  LD seen_2
  ST before
  LD seen_2
  EQ 0
  OR quiet.Q
  JMPC dark
  LD 180
  ST corridor_2
  RET
dark:
  LD 0
  ST corridor_2
END_PROGRAM

(* The lamps in the yard burn while it is dark there: on below 30 lux, off from 60 lux on. *)
PROGRAM dusk
VAR_EXTERNAL
  yard : Level;
  lux : UINT (0..1023);
END_VAR
  LD lux
  LT 30
  JMPC dark
  LD lux
  LT 60
  RETC
  LD 0
  ST yard
  RET
dark:
  LD 254
  ST yard
END_PROGRAM

CONFIGURATION school
VAR_GLOBAL
  room_01 AT %QB0.1 : Level;
  room_02 AT %QB0.2 : Level;
  room_03 AT %QB0.3 : Level;
  room_04 AT %QB0.4 : Level;
  corridor_0 AT %QB0.10 : Level;
  room_11 AT %QB1.1 : Level;
  room_12 AT %QB1.2 : Level;
  room_13 AT %QB1.3 : Level;
  room_14 AT %QB1.4 : Level;
  corridor_1 AT %QB1.10 : Level;
  room_21 AT %QB2.1 : Level;
  room_22 AT %QB2.2 : Level;
  room_23 AT %QB2.3 : Level;
  room_24 AT %QB2.4 : Level;
  corridor_2 AT %QB2.10 : Level;
  yard AT %QB0.20 : Level;
  press_01 AT %IX0.1 : BOOL;
  event_01 AT %IW0.129 : UINT (0..1023);
  press_02 AT %IX0.2 : BOOL;
  event_02 AT %IW0.130 : UINT (0..1023);
  press_03 AT %IX0.3 : BOOL;
  event_03 AT %IW0.131 : UINT (0..1023);
  press_04 AT %IX0.4 : BOOL;
  event_04 AT %IW0.132 : UINT (0..1023);
  seen_0 AT %IW0.202 : UINT;
  press_11 AT %IX1.1 : BOOL;
  event_11 AT %IW1.129 : UINT (0..1023);
  press_12 AT %IX1.2 : BOOL;
  event_12 AT %IW1.130 : UINT (0..1023);
  press_13 AT %IX1.3 : BOOL;
  event_13 AT %IW1.131 : UINT (0..1023);
  press_14 AT %IX1.4 : BOOL;
  event_14 AT %IW1.132 : UINT (0..1023);
  seen_1 AT %IW1.202 : UINT;
  press_21 AT %IX2.1 : BOOL;
  event_21 AT %IW2.129 : UINT (0..1023);
  press_22 AT %IX2.2 : BOOL;
  event_22 AT %IW2.130 : UINT (0..1023);
  press_23 AT %IX2.3 : BOOL;
  event_23 AT %IW2.131 : UINT (0..1023);
  press_24 AT %IX2.4 : BOOL;
  event_24 AT %IW2.132 : UINT (0..1023);
  seen_2 AT %IW2.202 : UINT;
  light AT %IX0.20 : BOOL;
  lux AT %IW0.148 : UINT (0..1023);
END_VAR
TASK at_01 (SINGLE := press_01, PRIORITY := 0);
TASK at_02 (SINGLE := press_02, PRIORITY := 0);
TASK at_03 (SINGLE := press_03, PRIORITY := 0);
TASK at_04 (SINGLE := press_04, PRIORITY := 0);
TASK at_11 (SINGLE := press_11, PRIORITY := 0);
TASK at_12 (SINGLE := press_12, PRIORITY := 0);
TASK at_13 (SINGLE := press_13, PRIORITY := 0);
TASK at_14 (SINGLE := press_14, PRIORITY := 0);
TASK at_21 (SINGLE := press_21, PRIORITY := 0);
TASK at_22 (SINGLE := press_22, PRIORITY := 0);
TASK at_23 (SINGLE := press_23, PRIORITY := 0);
TASK at_24 (SINGLE := press_24, PRIORITY := 0);
TASK outside (SINGLE := light, PRIORITY := 1);
TASK clock (INTERVAL := T#1m, PRIORITY := 2);
PROGRAM p_01 WITH at_01 : door_01;
PROGRAM p_02 WITH at_02 : door_02;
PROGRAM p_03 WITH at_03 : door_03;
PROGRAM p_04 WITH at_04 : door_04;
PROGRAM p_11 WITH at_11 : door_11;
PROGRAM p_12 WITH at_12 : door_12;
PROGRAM p_13 WITH at_13 : door_13;
PROGRAM p_14 WITH at_14 : door_14;
PROGRAM p_21 WITH at_21 : door_21;
PROGRAM p_22 WITH at_22 : door_22;
PROGRAM p_23 WITH at_23 : door_23;
PROGRAM p_24 WITH at_24 : door_24;
PROGRAM w_0 WITH clock : walk_0;
PROGRAM w_1 WITH clock : walk_1;
PROGRAM w_2 WITH clock : walk_2;
PROGRAM sensor WITH outside : dusk;
END_CONFIGURATION
