---- MODULE M ----
EXTENDS Integers
VARIABLE x
Init == x = 0
Next == /\ x < 3
        /\ x' = IF x = 1 THEN 2
      ELSE x + 1
====
