---- MODULE M ----
EXTENDS Integers
VARIABLE x
Bad == CHOOSE n \in {1, 2, 3} : n > 3
Never == 1 \div 0
Init == x = 0
Next == x < 9 /\ x' = x + 1
Inv == /\ IF x < 5 THEN TRUE ELSE Never = 1
       /\ IF x < 3 THEN TRUE ELSE Bad = 1 \/ Never = 1
====
