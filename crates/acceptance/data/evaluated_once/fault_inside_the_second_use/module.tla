---- MODULE M ----
EXTENDS Integers
VARIABLE x
Init == x \in 0..5
Next == x' = x
Inv == LET f == [i \in 1..3 |-> i + x]
       IN  f[1] = x + 1 /\ f[x + 1] = 2 * x + 1
====
