(* A lobby: the caretaker's switch counts before all else, then daylight. *)
TYPE
  Level : USINT (0..254);
END_TYPE
PROGRAM lobby
VAR
  locked : BOOL;                          (* the caretaker has switched the light off *)
  lux : UINT := 120;                      (* daylight *)
  wanted : UINT (100..1000) := 400;
  level : Level;
END_VAR
  LD locked
  JMPC dark
  LD wanted
  SUB lux
  LIMIT 0, 1000
  MUL 254
  DIV wanted
  MIN 254
  JMP set
dark:
  LD 0
set:
  ST level
END_PROGRAM
