---- MODULE Election ----
CONSTANT Proc
VARIABLE state
State == {"follower", "leader"}
Init == state \in [Proc |-> State]
Next == \E p \in Proc : state' = [state EXCEPT ![p] = "leader"]
====
