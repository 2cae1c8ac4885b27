---- MODULE Pick ----
EXTENDS Integers
VARIABLE x
Init == x = 0
Add(n, m) == x' = x + n + m
Next == \E n \in (LET one == 1 IN IF \E p \in {one} : p = one THEN {one} ELSE {}), m \in {2} : Add(n, m)
Inv == x < 3
====
