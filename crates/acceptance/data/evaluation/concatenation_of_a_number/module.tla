---- MODULE M ----
EXTENDS Integers, Sequences, FiniteSets, TLC
VARIABLE x
ASSUME <<1>> \o 2 = <<1>>
Init == x = 0
Next == x' = (x + 1) % 3
Inv == x < 3
====
