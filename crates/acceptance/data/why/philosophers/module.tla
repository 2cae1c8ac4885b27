---- MODULE Philosophers ----
EXTENDS Naturals
CONSTANT N
VARIABLES fork, has
Phil == 1..N
Left(p) == p
Right(p) == (p % N) + 1
Init == fork = [f \in Phil |-> "free"] /\ has = [p \in Phil |-> 0]
TakeLeft(p) ==
    /\ has[p] = 0
    /\ fork[Left(p)] = "free"
    /\ fork' = [fork EXCEPT ![Left(p)] = "taken"]
    /\ has' = [has EXCEPT ![p] = 1]
TakeRight(p) ==
    /\ has[p] = 1
    /\ fork[Right(p)] = "free"
    /\ fork' = [fork EXCEPT ![Right(p)] = "taken"]
    /\ has' = [has EXCEPT ![p] = 2]
Done(p) ==
    /\ has[p] = 2
    /\ fork' = [fork EXCEPT ![Left(p)] = "free", ![Right(p)] = "free"]
    /\ has' = [has EXCEPT ![p] = 0]
Next == \E p \in Phil : TakeLeft(p) \/ TakeRight(p) \/ Done(p)
====
