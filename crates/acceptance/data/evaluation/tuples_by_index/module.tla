---- MODULE M ----
EXTENDS Integers, Sequences, FiniteSets, TLC
VARIABLE x
ASSUME <<"a", "b">>[2] = "b" /\ Len(<<1, 2, 3>>) = 3 /\ << >> = <<>>
Init == x = 0
Next == x' = (x + 1) % 3
Inv == x < 3
====
