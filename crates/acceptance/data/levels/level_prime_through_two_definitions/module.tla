---- MODULE M ----
EXTENDS Integers
VARIABLES x, y
Foo == x'
Bar == <<1, Foo>>
Init == x = 0 /\ y = 0
Next == y' = 0 /\ Bar' = 0
Inv == TRUE
====
