---- MODULE M ----
EXTENDS Integers
VARIABLE x
Within(s, k) == \A a, b \in s : a - b < k /\ a + b # 17
Init == x \in 0..2
Next == x' = x
Inv == \A a \in 1..3 : /\ Within({a * b + x : b \in 1..3}, 2 * a + 1)
                       /\ \E b \in 3..4 : Within({a, b}, 4 - a) /\ a + b > 3
====
