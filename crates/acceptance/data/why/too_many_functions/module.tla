---- MODULE Registers ----
EXTENDS Naturals
VARIABLE regs
Init == regs = [r \in 1..8 |-> 0]
Next == regs' \in [1..8 -> 0..9]
====
