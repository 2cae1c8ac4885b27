---- MODULE Wrong ----
VARIABLES x
Init == x = 0
Next == y' = x
====
