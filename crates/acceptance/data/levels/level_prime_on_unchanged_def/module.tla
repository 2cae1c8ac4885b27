---- MODULE M ----
EXTENDS Integers
VARIABLES x, y
Foo == UNCHANGED <<x, y>>
Init == x = 0 /\ y = 0
Next == Foo'
Inv == TRUE
====
