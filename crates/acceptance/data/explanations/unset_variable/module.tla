---- MODULE M ----
EXTENDS Integers
VARIABLES x, y
Init == x = 0 /\ y = 0
StepX == x' = (x + 1) % 3
StepY == y' = (y + 1) % 3 /\ UNCHANGED x
Next == StepX \/ StepY
====
