---- MODULE Budget ----
EXTENDS Naturals
CONSTANT Limit
VARIABLES cost, plan
Init ==
    /\ cost \in 1..3
    /\ plan = "none"
    /\ cost > Limit
Next == UNCHANGED <<cost, plan>>
Cheap == cost < 9
====
