---- MODULE M ----
EXTENDS Integers
VARIABLES x, y
Init == x = 0 /\ y = 0
Next == x' = (x + 1) % 3 /\ y' = x
Inv == x < 3
part == <<y>>
vars == <<x, part>>
Spec == Init /\ [][Next]_vars /\ SF_vars(Next)
====
