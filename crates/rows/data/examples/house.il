(* A house: each short press of the push button switches the lamp on or off. *)
PROGRAM sw
VAR_EXTERNAL
  event : UINT (0..1023);
  lamp : USINT (0..254);
END_VAR
  LD event
  NE 2             (* anything but a short press: the button also says when it is pressed and released *)
  RETC
  LD lamp
  EQ 0
  JMPC lit
  LD 0
  ST lamp
  RET
lit:
  LD 200
  ST lamp
END_PROGRAM

CONFIGURATION house
VAR_GLOBAL
  pressed AT %IX0.3 : BOOL;              (* the push button *)
  event AT %IW0.131 : UINT (0..1023);    (* what it said last *)
  lamp AT %QB0.5 : USINT (0..254);       (* the level of the gear with short address 5 *)
END_VAR
TASK push (SINGLE := pressed, PRIORITY := 1);
PROGRAM s1 WITH push : sw;
END_CONFIGURATION
