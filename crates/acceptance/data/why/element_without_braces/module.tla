---- MODULE Members ----
EXTENDS Naturals
CONSTANT Host
VARIABLE up
Init == up = {}
Join(h) == up' = up \cup h
Next == \E h \in Host : Join(h)
====
