---- MODULE M ----
EXTENDS Integers, Sequences, FiniteSets, TLC
VARIABLE x
ASSUME <<1, "a">> \in Nat \X STRING /\ <<1>> \notin Nat \X Nat /\ 1 \notin Nat \X Nat
Init == x = 0
Next == x' = (x + 1) % 3
Inv == x < 3
====
