---- MODULE M ----
EXTENDS Integers
VARIABLES x, y
Init == x = 0 /\ y = 0
Next == IF x = 0 THEN x' = 1 ELSE (IF y = 0 THEN x' ELSE 1)' = 0
Inv == TRUE
====
