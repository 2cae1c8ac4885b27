---- MODULE M ----
EXTENDS Integers, Sequences, FiniteSets, TLC
VARIABLE x
Init == x = 1
Next == x' \in {(x * 2) % 97, (x + 3) % 97}
Inv == x # 90
====
