---- MODULE M ----
EXTENDS Integers
VARIABLE x
Max(S) == CHOOSE a \in S : \A b \in S : a >= b
Init == x \in 0..3
Next == x' = x
Inv == Max({(i * 7 + x) % 11 : i \in 1..5}) # Max({Max({i, x}) + 6 : i \in 1..3})
====
