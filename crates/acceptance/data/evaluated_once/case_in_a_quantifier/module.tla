---- MODULE M ----
EXTENDS Integers
VARIABLE x
Init == x \in 0..4
Next == x' = x
Kind(n) == CASE n < 2 -> "few" [] n < 4 -> {n} \cup 0..1 [] OTHER -> CASE x = 4 -> <<n, x>> [] OTHER -> "many"
Inv == \A i \in 0..4 : LET k == Kind(i) IN IF i < 2 THEN k = "few" ELSE IF i < 4 THEN 0 \in k /\ i \in k ELSE k # <<4, 4>>
====
