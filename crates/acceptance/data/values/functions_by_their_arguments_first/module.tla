---- MODULE M ----
EXTENDS Integers, Sequences, TLC
VARIABLE x
Init == x \in {(2 :> 1), (1 :> 9)}
Next == x' = x
Inv == x = 7
====
