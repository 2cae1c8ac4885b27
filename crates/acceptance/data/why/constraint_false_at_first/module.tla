---- MODULE Stack ----
EXTENDS Naturals, Sequences
VARIABLE stack
Init == stack \in {<<1>>, <<1, 2>>}
Push == stack' = Append(stack, 1)
Next == Push
Small == Len(stack) < 1
NotFull == Len(stack) < 9
====
