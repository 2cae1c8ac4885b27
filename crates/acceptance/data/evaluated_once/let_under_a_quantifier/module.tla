---- MODULE M ----
EXTENDS Integers
VARIABLE x
Init == x \in 0..2
Next == x' = x
Inv == \A k \in 1..4 :
         LET s == {i * k + x : i \in 1..3}
         IN  k + x \in s /\ 2 * k + x \in s /\ 14 \notin s
====
