---- MODULE M ----
EXTENDS Integers
VARIABLES x, y
Pos == (0..2) \X (0..1)
Perm == {f \in [1..3 -> 1..3] : \A i, j \in 1..3 : f[i] = f[j] => i = j}
Init == x = <<1, 2, 3>> /\ y = <<0, 0>>
Next == /\ x' \in {f \in Perm : f[3] # x[3]}
        /\ y' \in {p \in Pos : p[1] = y[1] + 1}
Inv == x \in Perm /\ y \in Pos /\ (x = <<3, 2, 1>> => y # <<2, 1>>)
====
