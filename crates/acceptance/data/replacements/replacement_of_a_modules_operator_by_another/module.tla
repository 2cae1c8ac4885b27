---- MODULE M ----
EXTENDS Integers, Sequences, FiniteSets
VARIABLE x
ASSUME Head(<<1, 2>>) = <<2>>
Init == x = 0
Next == x' = (x + 1) % 3
Inv == x < 3
====
