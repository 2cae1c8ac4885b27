---- MODULE M ----
EXTENDS Integers
VARIABLE x
Init == x = 0
Next ==	/\ x < 3
	/\ x' = xs + 1
====
