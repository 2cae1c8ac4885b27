---- MODULE M ----
EXTENDS Integers
VARIABLE x
Init == x \in 0..3
Next == x' = x
Inv == LET s == {k \in 0..4 : 8 \div k > 1}
       IN  2 \in s /\ 4 \in s /\ (x >= 2 => x - 2 \in s)
====
