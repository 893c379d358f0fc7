(* A lamp failure that is noticed: each minute a lamp is asked for its status.
   The caretaker's lamp is on while that lamp has failed or does not answer. *)
PROGRAM watch
VAR_EXTERNAL
  status : UINT (0..258);
  warning : USINT (0..254);
END_VAR
VAR
  ask : GEAR_ASK;
END_VAR
  CAL ask(REQ := FALSE)
  CAL ask(REQ := TRUE, ADR := 5, CMD := 0)    (* QUERY STATUS *)
  LD status
  GE 257           (* damaged, or none yet: nothing new is known *)
  RETC
  LD status
  MOD 4
  GE 2             (* bit 1 of the status: lamp failure *)
  OR( status
    EQ 256         (* no answer *)
  )
  JMPC warn
  LD 0
  ST warning
  RET
warn:
  LD 254
  ST warning
END_PROGRAM

CONFIGURATION house
VAR_GLOBAL
  status AT %IW0.5 : UINT (0..258);      (* what the lamp answered last *)
  warning AT %QB0.9 : USINT (0..254);    (* the caretaker's lamp *)
END_VAR
TASK clock (INTERVAL := T#1m, PRIORITY := 1);
PROGRAM lamps WITH clock : watch;
END_CONFIGURATION
