---- MODULE M ----
EXTENDS Integers, Sequences, TLC
VARIABLE x
Init == x = ("a" :> 1 @@ "a b" :> 2)
Next == x' = x /\ FALSE
====
