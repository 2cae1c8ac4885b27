---- MODULE River ----
\* Missionaries and cannibals cross a river in a boat for two.
EXTENDS Integers, FiniteSets
CONSTANTS Missionaries, Cannibals
VARIABLES boat, who

Banks == {"east", "west"}
Other(b) == IF b = "east" THEN "west" ELSE "east"

Init ==
    /\ boat = "east"
    /\ who = [b \in Banks |-> IF b = "east" THEN Missionaries \cup Cannibals ELSE {}]

Safe(group) ==
    \/ group \subseteq Cannibals
    \/ Cardinality(group \cap Cannibals) <= Cardinality(group \cap Missionaries)

Move(group) ==
    /\ Cardinality(group) <= 2
    /\ LET from == who[boat] \ group
           to == who[Other(boat)] \cup group
       IN  /\ Safe(from)
           /\ Safe(to)
           /\ boat' = Other(boat)
           /\ who' = [b \in Banks |-> IF b = boat THEN from ELSE to]

Next == \E group \in SUBSET who[boat] : group # {} /\ Move(group)

NotSolved == who["east"] # {}
NoneLost == who["east"] \cup who["west"] = Missionaries \cup Cannibals
====
