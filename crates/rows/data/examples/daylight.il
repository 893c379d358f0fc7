(* Two rows of lamps make up for the daylight that is missing: at the wall there is more to make up
   for than at the window. *)
TYPE
  Level : USINT (0..254);
END_TYPE

(* The level that brings the light up to what is wanted. *)
FUNCTION by_daylight : Level
VAR_INPUT
  measured : UINT;           (* what the sensor says, in lux *)
  wanted : UINT (100..1000);
END_VAR
  LD wanted
  SUB measured
  MAX 0                      (* what is missing *)
  MUL 254
  DIV wanted
  MIN 254
  ST by_daylight
END_FUNCTION

PROGRAM room
VAR
  lux : UINT := 120;
  window, wall : Level;
END_VAR
  LD lux
  by_daylight 300
  ST window
  LD lux
  by_daylight 600
  ST wall
END_PROGRAM
