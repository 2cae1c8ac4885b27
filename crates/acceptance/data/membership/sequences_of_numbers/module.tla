---- MODULE M ----
EXTENDS Integers, Sequences, FiniteSets, TLC
VARIABLE x
ASSUME <<1, 2>> \in Seq(Nat) /\ << >> \in Seq(Nat) /\ <<1, "a">> \notin Seq(Nat) /\ 1 \notin Seq(Nat)
Init == x = 0
Next == x' = (x + 1) % 3
Inv == x < 3
====
