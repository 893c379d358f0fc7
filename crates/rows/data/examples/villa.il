(* A villa on two buses: the hall with its push button, and the garden with its gate. *)
PROGRAM door
VAR_EXTERNAL
  hall : USINT (0..254);
END_VAR
  LD hall
  EQ 0
  JMPC lit
  LD 0
  ST hall
  RET
lit:
  LD 200
  ST hall
END_PROGRAM

PROGRAM gate
VAR_EXTERNAL
  visits : UINT;
  guests : UINT (0..999);
END_VAR
VAR
  welcome : GEAR_DO;
END_VAR
  LD visits
  MIN 999
  ST guests
  LD FALSE
  ST welcome.REQ
  CAL welcome
  LD TRUE
  ST welcome.REQ
  CAL welcome(BUS := 1, ADR := 80, CMD := 5)    (* all gear: RECALL MAX LEVEL *)
END_PROGRAM

PROGRAM evening
VAR_EXTERNAL
  garden : USINT (0..254);
END_VAR
VAR
  scene : GEAR_SET;
  ask : GEAR_ASK;
  look : DEV_ASK;
  even : BOOL;
END_VAR
  LD TRUE
  ST scene.REQ
  CAL scene(ADR := 5, CMD := 9, DATA := 100)    (* in the first scan: scene 2 is 100 *)
  LDN even
  ST even
  ST ask.REQ
  CAL ask(ADR := 5, CMD := 16)                  (* in each second scan: the actual level *)
  LD even
  ST look.REQ
  CAL look(ADR := 3, INST := 2, CMD := 2)       (* and the input value of the push button *)
  LD garden
  ADD 50
  MIN 254
  ST garden
END_PROGRAM

CONFIGURATION villa
VAR_GLOBAL
  pressed AT %IX0.0 : BOOL;             (* the push button in the hall *)
  opened AT %IX1.0 : BOOL;              (* the gate *)
  visits AT %IW1.192 : UINT;            (* how often it opened *)
  hall AT %QB0.5 : USINT (0..254);
  garden AT %QB1.9 : USINT (0..254);
  level AT %IW0.5 : UINT (0..258);      (* what the lamp in the hall answered last *)
  button AT %IW0.67 : UINT (0..258);    (* what the push button answered last *)
  guests : UINT (0..999);
END_VAR
TASK push (SINGLE := pressed, PRIORITY := 0);
TASK visitor (SINGLE := opened, PRIORITY := 0);
TASK clock (INTERVAL := T#1s, PRIORITY := 1);
PROGRAM light WITH push : door;
PROGRAM bell WITH visitor : gate;
PROGRAM lamps WITH clock : evening;
END_CONFIGURATION
