(* A light sensor: two rows of lamps make up for the daylight that is missing. *)
FUNCTION by_daylight : USINT (0..254)
VAR_INPUT
  measured : UINT (0..1023);
  wanted : UINT (100..1000);
END_VAR
  LD wanted
  SUB measured
  MAX 0            (* what is missing *)
  MUL 254
  DIV wanted
  MIN 254
  ST by_daylight
END_FUNCTION

PROGRAM room
VAR_EXTERNAL
  measured : UINT (0..1023);
  window : USINT (0..254);
  wall : USINT (0..254);
END_VAR
  LD measured
  by_daylight 300
  ST window
  LD measured
  by_daylight 600
  ST wall
END_PROGRAM

CONFIGURATION house
VAR_GLOBAL
  reported AT %IX0.0 : BOOL;                (* the sensor has sent what it measures *)
  measured AT %IW0.128 : UINT (0..1023);    (* what it sent last *)
  window AT %QB0.5 : USINT (0..254);
  wall AT %QB0.6 : USINT (0..254);
END_VAR
TASK light (SINGLE := reported, PRIORITY := 1);
PROGRAM rows WITH light : room;
END_CONFIGURATION
