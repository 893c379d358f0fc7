(* Each weekday at seven: the shop is lit from then on, until six in the evening. The clock has these
   times in row 0 of its table, and says when the row begins and ends. *)
PROGRAM hours
VAR_EXTERNAL
  open : UINT (0..1023);
  shop : USINT (0..255);
END_VAR
  LD open
  EQ 1
  JMPC lit
  LD 0
  ST shop
  RET
lit:
  LD 200
  ST shop
END_PROGRAM

CONFIGURATION house
VAR_GLOBAL
  turned AT %IX1.1 : BOOL;                   (* the clock: row 0 of its table begins or ends *)
  open AT %IW1.129 : UINT (0..1023);         (* 1 from its beginning to its end, else 0 *)
  shop AT %QB0.5 : USINT (0..255) := 255;    (* nothing is sent before the clock has spoken *)
END_VAR
TASK turn (SINGLE := turned, PRIORITY := 1);
PROGRAM light WITH turn : hours;
END_CONFIGURATION
