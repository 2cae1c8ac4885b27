---- MODULE M ----
EXTENDS Integers
VARIABLES x, done
Init == x = 0 /\ done = FALSE
Count == x < 2 /\ x' = x + 1 /\ UNCHANGED done
Stop == x = 2 /\ ~done /\ done' = TRUE /\ UNCHANGED x
Next == Count \/ Stop
====
