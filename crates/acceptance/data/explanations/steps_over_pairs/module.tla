---- MODULE Walk ----
EXTENDS Integers
VARIABLES at, load
pairs == {<<"a", "b">>, <<"b", "c">>, <<"c", "a">>}
Init == at = "a" /\ load = 0
Walk(x, y) == at = x /\ at' = y /\ UNCHANGED load
Lift(n, x, m) == at = x /\ x = "b" /\ load = 0 /\ load' = n + m /\ UNCHANGED at
Next == \/ \E <<x, y>> \in pairs : Walk(x, y)
        \/ \E n \in {1}, <<x, y>> \in pairs, <<m, k>> \in {<<2, 3>>}, z \in {4} : Lift(n, x, m)
Inv == ~(at = "c" /\ load = 3)
====
