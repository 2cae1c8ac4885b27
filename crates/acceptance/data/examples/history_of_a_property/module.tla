---- MODULE History ----
EXTENDS Integers
VARIABLES v, good
A == v' >= v
Init == v = 0
Next == v' \in {v + 1, v - 2} /\ v < 3 /\ v > -1
InitH == Init /\ good = TRUE
NextH == Next /\ good' = (A \/ UNCHANGED v)
Good == good
====
