(* Counts the days by scans of 100 ms, and says when it is night. *)
PROGRAM days
VAR
  clock : TIME := T#5h59m59s900ms;
  day : USINT (0..48);
  night : BOOL := TRUE;
END_VAR
  LD clock
  ADD T#100ms
  MOD T#49d
  ST clock
  DIV T#1d
  ST day
  LD clock
  MOD T#1d
  LT T#6h
  OR( clock
    MOD T#1d
    GE T#22h
  )
  ST night
END_PROGRAM
