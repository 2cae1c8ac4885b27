---- MODULE M ----
EXTENDS Integers
VARIABLES x, y
Foo == 1 + x
ASSUME 1 < Foo
Init == x = 0 /\ y = 0
Next == x' = x /\ y' = y
Inv == TRUE
====
