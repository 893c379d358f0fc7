(* Lamps that become brighter or darker little by little, a step in each scan. *)
TYPE
  Level : USINT (0..254);
END_TYPE

(* One step from the level to the goal, and no further than the goal. *)
FUNCTION ramp : Level
VAR_INPUT
  level, goal : Level;
  step : USINT (1..32);
END_VAR
VAR
  least : INT (-32..253);
  most : INT (1..286);
END_VAR
  LD level
  SUB step
  ST least
  LD level
  ADD step
  ST most
  LD goal
  LIMIT least, most
  ST ramp
END_FUNCTION

PROGRAM stage
VAR
  hall : Level := 100;
  spot : Level := 250;
END_VAR
  LD hall
  ramp 0, 16                 (* the hall goes dark *)
  ST hall
  LD spot
  ramp 254, 5                (* and the spotlight is lit *)
  ST spot
END_PROGRAM
