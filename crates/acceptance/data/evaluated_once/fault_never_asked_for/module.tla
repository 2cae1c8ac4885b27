---- MODULE M ----
EXTENDS Integers
VARIABLE x
Bad == 1 \div 0
None == CHOOSE n \in {1, 2} : n > 2
First(a, b) == a
ASSUME LET s == 1 \div 0 IN TRUE
ASSUME First(TRUE, 1 \div 0) /\ \A i \in {} : Bad = i
Init == x = 0
Next == LET d == Bad IN x' = First((x + 1) % 3, d + None)
Inv == /\ LET f[i \in 1..Bad] == i IN x >= 0
       /\ IF x < 5 THEN TRUE ELSE Bad = 1
       /\ x < 5 \/ None = x
====
