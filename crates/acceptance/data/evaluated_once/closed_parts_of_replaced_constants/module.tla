---- MODULE M ----
EXTENDS Integers, FiniteSets
CONSTANTS N, Colour
VARIABLES x, y
Three == Cardinality({i \in 1..9 : i % 3 = 0})
Pairs == {<<i, c>> \in (0..N) \X Colour : i # 1}
Init == x = 0 /\ y \in Colour
Next == x' = (x + 1) % (N + 1) /\ \E c \in Colour : <<x, c>> \in Pairs /\ y' = c
Inv == Cardinality(Pairs) = N * N /\ y \in Colour
====
