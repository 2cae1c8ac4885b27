---- MODULE Average ----
EXTENDS Integers
VARIABLES total, count
Init == total = 5 /\ count = 2
Remove == count' = count - 1 /\ total' = total - 1
Next == Remove
Mean(t, n) == t \div n
Low == Mean(total, count) < 9
====
