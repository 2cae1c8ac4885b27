---- MODULE M ----
EXTENDS Integers
VARIABLES at, load
pairs == {<<1, 2>>, <<2, 1>>}
Init == at = 1 /\ load = 0
Move == \E <<x, y>> \in pairs : at = x /\ at' = y
Turn == at' = 3 - at /\ \E <<x, y>> \in pairs : at = x /\ load' = y
Next == Move \/ Turn
====
