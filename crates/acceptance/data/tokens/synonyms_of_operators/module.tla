---- MODULE M ----
EXTENDS Integers
VARIABLE x
ASSUME 1 =< 2 \land 1 \leq 2 \land 2 \geq 1 \land 1 /= 2 \land (\lnot FALSE) \land (\neg FALSE \equiv TRUE)
Init == x = 0
Next == x' = (x + 1) % 3
Inv == x < 3
====
