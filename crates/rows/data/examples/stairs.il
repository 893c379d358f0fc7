(* A stairwell: the light is on when the two switches differ,
   unless the caretaker has locked it.
   `changed` is TRUE in a scan in which the light came on or went out. *)
PROGRAM stairs
VAR
  lower, upper : BOOL;          (* the two switches *)
  locked : BOOL := FALSE;
  light, before, changed : BOOL;
END_VAR
  LD light
  ST before
  LD lower
  XOR upper
  ANDN locked
  ST light
  XOR before
  ST changed
END_PROGRAM

(* A latch: the alarm stays on from the first smoke until it is cleared. *)
PROGRAM alarm
VAR smoke : BOOL := TRUE; clear, siren : BOOL; END_VAR
  LD smoke
  S siren
  LD clear
  R siren
END_PROGRAM
