---- MODULE M ----
EXTENDS Integers, Sequences, FiniteSets, TLC
VARIABLE x
ASSUME (1 :> 2) = <<2>> /\ (1 :> 2 @@ 2 :> 3) = <<2, 3>> /\ (1 :> 2 @@ 1 :> 3)[1] = 2
Init == x = 0
Next == x' = (x + 1) % 3
Inv == x < 3
====
