---- MODULE M ----
EXTENDS Integers
VARIABLES x, y
Foo == x + 1
Init == x = 0 /\ y = Foo'
Next == x' = x /\ y' = y
Inv == TRUE
====
