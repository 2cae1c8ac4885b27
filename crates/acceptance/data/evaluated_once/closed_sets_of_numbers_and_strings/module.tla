---- MODULE M ----
EXTENDS Integers
VARIABLES pc, x
Phase == {"idle", "busy"}
Zero == {0}
Length == [idle |-> 1, busy |-> 3]
ASSUME {0} = Zero /\ {"idle"} \subseteq Phase /\ {"0"} # {0} /\ {{0}} # {0}
Init == pc = "idle" /\ x = 0
Next == pc' = (CHOOSE p \in Phase : p # pc) /\ x' = Length[pc]
Inv == /\ x \in {0} \cup {k \in 1..3 : k % 2 = 1} /\ pc \in {"idle", "busy"}
       /\ pc = "idle" => x \in {0}
====
