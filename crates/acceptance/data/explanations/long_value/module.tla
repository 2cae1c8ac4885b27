---- MODULE M ----
EXTENDS Integers
VARIABLE x
Init == x = 1..100
Next == x' = x \ {CHOOSE v \in x : TRUE}
Inv == 3 \in x
====
