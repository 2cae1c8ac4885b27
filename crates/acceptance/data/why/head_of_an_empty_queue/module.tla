---- MODULE Mail ----
EXTENDS Naturals, Sequences
CONSTANT User
VARIABLE inbox
Init == inbox = [u \in User |-> << >>]
Receive(u) == inbox' = [inbox EXCEPT ![u] = IF Head(@) = 1 THEN << >> ELSE Append(@, 1)]
Next == \E u \in User : Receive(u)
====
