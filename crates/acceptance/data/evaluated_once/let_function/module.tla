---- MODULE M ----
EXTENDS Integers
VARIABLE x
Init == x \in 0..3
Next == x' = x
Inv == LET f[i \in 0..4] == (i * i + x) % 5
       IN  \A i \in 0..4 : f[i] = f[(5 - i) % 5] /\ f[i] + f[0] # 7
====
