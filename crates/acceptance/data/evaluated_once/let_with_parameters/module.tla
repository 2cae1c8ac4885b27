---- MODULE M ----
EXTENDS Integers
VARIABLE x
Init == x \in 0..3
Next == x' = x
Inv == LET Has(a) == a \in {j * j + x : j \in 1..4}
       IN  \A k \in 1..4 : Has(k * k + x) /\ ~ Has(k + 18)
====
