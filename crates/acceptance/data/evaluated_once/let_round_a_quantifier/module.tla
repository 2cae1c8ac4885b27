---- MODULE M ----
EXTENDS Integers
VARIABLE x
Init == x \in 0..5
Next == x' = x
Inv == LET s == {i * i + x : i \in 1..6}
       IN  \A k \in 1..6 : k * k + x \in s /\ k + 40 \notin s
====
