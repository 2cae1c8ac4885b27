---- MODULE M ----
EXTENDS Integers
VARIABLE x
Init == x \in 0..2
Next == x' = x
Inv == /\ \E j \in 5..6 : LET d == j + x IN d + d > 10
       /\ \A i \in 1..3 : LET d == 2 * i + x
                          IN  \A j \in 1..3 : LET e == d * j
                                              IN  e + e = 2 * j * (2 * i + x) /\ e # 24
====
