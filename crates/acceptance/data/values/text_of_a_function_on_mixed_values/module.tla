---- MODULE M ----
EXTENDS Integers, Sequences, TLC
VARIABLE x
Init == x = (1 :> 2 @@ "a" :> 3)
Next == x' = x /\ FALSE
====
