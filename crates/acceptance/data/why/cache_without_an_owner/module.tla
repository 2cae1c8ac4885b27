---- MODULE Cache ----
EXTENDS Naturals
VARIABLES line, owner
Cache == {"a", "b"}
Addr == 1..2
Init ==
    /\ line = [a \in Addr |-> [c \in Cache |-> "invalid"]]
    /\ owner = [a \in Addr |-> "memory"]
Read(c, a) ==
    /\ line[a][c] = "invalid"
    /\ line' = [line EXCEPT ![a][c] = "shared"]
    /\ UNCHANGED owner
Write(c, a) ==
    /\ line' = [line EXCEPT ![a] = [d \in Cache |-> IF d = c THEN "modified" ELSE "invalid"]]
    /\ owner' = [owner EXCEPT ![a] = c]
Evict(c, a) ==
    /\ line[a][c] = "modified"
    /\ line' = [line EXCEPT ![a][c] = "invalid"]
    /\ UNCHANGED owner
Next == \E c \in Cache, a \in Addr : Read(c, a) \/ Write(c, a) \/ Evict(c, a)
Owned(a) == \E c \in Cache : line[a][c] = "modified"
Coherent ==
    \A a \in Addr :
        IF owner[a] = "memory"
        THEN ~ Owned(a)
        ELSE Owned(a)
====
