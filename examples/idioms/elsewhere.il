(* A lamp that a button switches, and somebody elsewhere too: a telephone, or the system of a whole
   building. What is wished there comes as an event of bus 1, and the level is said there. *)
PROGRAM count
VAR_EXTERNAL
  event : UINT (0..1023);
  presses : UINT (0..9999);
END_VAR
  LD event
  NE 2             (* only a short press *)
  RETC
  LD presses
  ADD 1
  MOD 10000
  ST presses
END_PROGRAM

PROGRAM both
VAR_EXTERNAL
  presses : UINT (0..9999);
  wishes : UINT;
  wish : UINT (0..1023);
  lamp : USINT (0..254);
  shown : USINT (0..254);
END_VAR
VAR
  seen : UINT (0..9999);
  met : UINT;
END_VAR
  LD presses
  EQ seen
  JMPC asked
  LD presses
  ST seen
  LD lamp
  EQ 0
  JMPC lit
  LD 0
  ST lamp
  JMP asked
lit:
  LD 200
  ST lamp
asked:
  LD wishes
  EQ met
  JMPC say
  LD wishes
  ST met
  LD wish
  MIN 254          (* 255 is 'on', without a level *)
  ST lamp
say:
  LD lamp
  ST shown
END_PROGRAM

CONFIGURATION house
VAR_GLOBAL
  pressed AT %IX0.0 : BOOL;                 (* the button *)
  event AT %IW0.128 : UINT (0..1023);       (* what it said last *)
  presses : UINT (0..9999);
  wish AT %IW1.128 : UINT (0..1023);        (* the level that was wished last *)
  wishes AT %IW1.192 : UINT;                (* how many wishes came *)
  lamp AT %QB0.5 : USINT (0..254);
  shown AT %QB1.5 : USINT (0..254);         (* what is said of it elsewhere *)
END_VAR
TASK push (SINGLE := pressed, PRIORITY := 0);
TASK clock (INTERVAL := T#100ms, PRIORITY := 1);
PROGRAM button WITH push : count;
PROGRAM light WITH clock : both;
END_CONFIGURATION
