---- MODULE M ----
EXTENDS Integers
VARIABLES x, y
vars == <<y, <<1, 2 + x'>> >>
Init == x = 0 /\ y = 0
Next == UNCHANGED vars
Inv == TRUE
====
