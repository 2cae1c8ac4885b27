---- MODULE M ----
EXTENDS Integers, Sequences, FiniteSets, TLC
VARIABLES x, y
Pair == <<x, y>>
Init == x = 0 /\ y = 0
Next == Pair' = <<1, 2>> /\ x' = 1
====
