---- MODULE M ----
EXTENDS Integers, Sequences, FiniteSets, TLC
VARIABLE x
Init == x = <<1>>
Next == x' = <<5>> /\ x'[1] = 5 /\ (x[1])' = 5
====
