---- MODULE M ----
EXTENDS Integers, Sequences, FiniteSets, TLC
VARIABLE x
ASSUME [<<0>> EXCEPT ![1] = @ + 1, ![1] = @ * 10] = <<10>>
Init == x = 0
Next == x' = (x + 1) % 3
Inv == x < 3
====
