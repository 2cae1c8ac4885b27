---- MODULE M ----
EXTENDS Integers, Sequences
CONSTANT N
VARIABLES q, state
Init == q = << >> /\ state = "idle"
Put(n) == state = "idle" /\ Len(q) < 2 /\ q' = Append(q, n) /\ UNCHANGED state
Get == q # << >> /\ q' = Tail(q) /\ UNCHANGED state
Stop == state = "stoped" /\ q' = << >> /\ state' = "idle"
Retry(n) == n > 5 /\ Put(n)
Next == (\E n \in 1..N : Put(n) \/ Retry(n)) \/ Get \/ Stop
Inv == Len(q) < 3
====
